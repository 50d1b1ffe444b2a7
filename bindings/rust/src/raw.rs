//! The proved calls over handles, and all that is unsafe. Each call is handed slices, which are never null.

use crate::{Analysis, Error, Limits, Point, Query};
use std::fmt;
use std::ops::Range;
use std::os::raw::c_void;
use std::ptr::null_mut;

#[repr(C)]
#[derive(Clone, Copy, Default)]
struct Place {
    number: u32,
    line: u32,
    column: u32,
}

/// How large a program is.
#[repr(C)]
#[derive(Clone, Copy, Debug, Default, PartialEq, Eq)]
pub struct Sizes {
    /// Procedures.
    pub procedures: u32,
    /// Points: one before each statement of a procedure, and one at its end.
    pub points: u32,
    /// Variables: the bits of live variables.
    pub variables: u32,
    /// Definitions: the bits of reaching definitions.
    pub definitions: u32,
    /// Expressions: the bits of available and of very busy expressions.
    pub expressions: u32,
}

#[repr(C)]
#[derive(Clone, Copy, Default)]
pub(crate) struct RawDefinition {
    pub variable: u32,
    pub point: u32,
}

#[repr(C)]
#[derive(Clone, Copy, Default)]
pub(crate) struct RawOperand {
    pub kind: u32,
    pub variable: u32,
    pub number: u64,
}

#[repr(C)]
#[derive(Clone, Copy, Default)]
pub(crate) struct RawExpression {
    pub operator: u32,
    pub left: RawOperand,
    pub right: RawOperand,
}

#[repr(C)]
#[derive(Clone, Copy, Default)]
pub(crate) struct RawStatement {
    pub kind: u32,
    pub target: u32,
    pub operator: u32,
    pub label: u32,
    pub goes_to: u32,
    pub expression: u32,
    pub left: RawOperand,
    pub right: RawOperand,
}

#[repr(C)]
#[derive(Clone, Copy, Default)]
pub(crate) struct RawBuilt {
    pub kind: u32,
    pub target: u32,
    pub operator: u32,
    pub label: u32,
    pub first_callee: u32,
    pub callees: u32,
    pub line: u32,
    pub left: RawOperand,
    pub right: RawOperand,
}

#[repr(C)]
#[derive(Clone, Copy, Default)]
pub(crate) struct RawBuiltProcedure {
    pub statements: u32,
    pub labels: u32,
}

/// Names, one after the other, and where each ends.
#[derive(Clone, Debug, Default)]
pub(crate) struct RawNames {
    pub ends: Vec<usize>,
    pub bytes: Vec<u8>,
}

impl RawNames {
    pub fn of<T: AsRef<str>>(names: impl IntoIterator<Item = T>) -> RawNames {
        let mut made = RawNames::default();
        for name in names {
            made.bytes.extend_from_slice(name.as_ref().as_bytes());
            made.ends.push(made.bytes.len());
        }
        made
    }
}

/// What a program is built of.
#[derive(Default)]
pub(crate) struct RawArrays {
    pub procedures: Vec<RawBuiltProcedure>,
    pub statements: Vec<RawBuilt>,
    pub labels: Vec<u32>,
    pub callees: Vec<u32>,
    pub procedure_names: RawNames,
    pub variable_names: RawNames,
    pub label_names: RawNames,
}

#[repr(C)]
#[derive(Clone, Copy, Default)]
struct BuildPlace {
    fault: u32,
    number: u32,
}

#[repr(C)]
#[derive(Clone, Copy, Default)]
pub(crate) struct RawEdge {
    pub kind: u32,
    pub site: u32,
    pub from: u32,
    pub to: u32,
}

#[repr(C)]
#[derive(Clone, Copy, Default)]
pub(crate) struct RawRemark {
    pub point: u32,
    pub kind: u32,
    pub name: u32,
}

#[repr(C)]
#[derive(Clone, Copy, Default)]
pub(crate) struct RawNearby {
    pub kind: u32,
    pub point: u32,
    pub variable: u32,
}

#[repr(C)]
#[derive(Clone, Copy, Default)]
pub(crate) struct RawHop {
    pub kind: u32,
    pub from: u32,
    pub to: u32,
    pub site: u32,
    pub callee: u32,
    pub effect: u32,
}

#[repr(C)]
#[derive(Clone, Copy, Default)]
pub(crate) struct RawBit {
    pub point: u32,
    pub bit: u32,
    pub has: u32,
    pub end: usize,
}

#[repr(C)]
struct RawHandle {
    is_open: bool,
    at: *mut c_void,
}

const CLOSED: RawHandle = RawHandle { is_open: false, at: null_mut() };

type NamesCall = unsafe extern "C" fn(*mut RawHandle, *mut usize, usize, *mut u8, usize) -> u32;
type TextCall = unsafe extern "C" fn(*mut RawHandle, *mut u8, usize, *mut usize) -> u32;
type RowsCall = unsafe extern "C" fn(*mut RawHandle, *mut c_void, usize) -> u32;

extern "C" {
    fn tacflow_c_open(text: *const u8, length: usize, limits: u32, handle: *mut RawHandle, place: *mut Place) -> u32;
    fn tacflow_c_build(
        procedures: *const RawBuiltProcedure,
        procedure_count: usize,
        statements: *const RawBuilt,
        statement_count: usize,
        labels: *const u32,
        label_count: usize,
        callees: *const u32,
        callee_count: usize,
        procedure_ends: *const usize,
        procedure_end_count: usize,
        procedure_names: *const u8,
        procedure_bytes: usize,
        variable_ends: *const usize,
        variable_end_count: usize,
        variable_names: *const u8,
        variable_bytes: usize,
        label_ends: *const usize,
        label_end_count: usize,
        label_names: *const u8,
        label_bytes: usize,
        limits: u32,
        handle: *mut RawHandle,
        place: *mut BuildPlace,
    ) -> u32;
    fn tacflow_c_share(handle: *mut RawHandle, other: *mut RawHandle) -> u32;
    fn tacflow_c_close(handle: *mut RawHandle) -> u32;
    fn tacflow_c_sizes_of(handle: *mut RawHandle, sizes: *mut Sizes) -> u32;
    fn tacflow_c_points_of(handle: *mut RawHandle, points: *mut c_void, count: usize) -> u32;
    fn tacflow_c_definitions_of(handle: *mut RawHandle, definitions: *mut c_void, count: usize) -> u32;
    fn tacflow_c_expressions_of(handle: *mut RawHandle, expressions: *mut c_void, count: usize) -> u32;
    fn tacflow_c_procedures_of(handle: *mut RawHandle, ends: *mut usize, count: usize, bytes: *mut u8, room: usize) -> u32;
    fn tacflow_c_variables_of(handle: *mut RawHandle, ends: *mut usize, count: usize, bytes: *mut u8, room: usize) -> u32;
    fn tacflow_c_has_path(handle: *mut RawHandle, analysis: u32, first_point: u32, end_point: u32, flags: *mut u8, count: usize) -> u32;
    fn tacflow_c_doubtful(handle: *mut RawHandle, first_point: u32, end_point: u32, flags: *mut u8, count: usize) -> u32;
    fn tacflow_c_statements(handle: *mut RawHandle, statements: *mut c_void, count: usize) -> u32;
    fn tacflow_c_edges(
        handle: *mut RawHandle,
        first_point: u32,
        end_point: u32,
        edges: *mut RawEdge,
        room: usize,
        count: *mut usize,
    ) -> u32;
    fn tacflow_c_remarks(handle: *mut RawHandle, remarks: *mut RawRemark, room: usize, count: *mut usize) -> u32;
    fn tacflow_c_around(
        handle: *mut RawHandle,
        remark: *const RawRemark,
        nearby: *mut RawNearby,
        room: usize,
        count: *mut usize,
    ) -> u32;
    fn tacflow_c_doubt_origin(handle: *mut RawHandle, point: u32, origin: *mut u32) -> u32;
    fn tacflow_c_why(
        handle: *mut RawHandle,
        analysis: u32,
        point: u32,
        bit: u32,
        hops: *mut RawHop,
        room: usize,
        count: *mut usize,
        has: *mut u32,
    ) -> u32;
    fn tacflow_c_whys(
        handle: *mut RawHandle,
        analysis: u32,
        bits: *mut RawBit,
        bit_count: usize,
        hops: *mut RawHop,
        room: usize,
        count: *mut usize,
    ) -> u32;
    fn tacflow_c_ask(handle: *mut RawHandle, queries: *const Query, count: usize, words: *mut u64, word_count: usize) -> u32;
    fn tacflow_c_report_part(
        text: *const u8,
        length: usize,
        limits: u32,
        part: u32,
        count: u32,
        bytes: *mut u8,
        room: usize,
        size: *mut usize,
        place: *mut Place,
    ) -> u32;
    fn tacflow_c_listing_of(handle: *mut RawHandle, bytes: *mut u8, room: usize, size: *mut usize) -> u32;
    fn tacflow_c_report_of(handle: *mut RawHandle, bytes: *mut u8, room: usize, size: *mut usize) -> u32;
    fn tacflow_c_facts_of(
        handle: *mut RawHandle,
        analysis: u32,
        first_point: u32,
        end_point: u32,
        lo: u32,
        hi: u32,
        flags: *mut u8,
        flag_count: usize,
        words: *mut u64,
        word_count: usize,
    ) -> u32;
}

/// The status that tells how much room a list needs.
const BAD_ROOM: u32 = 5;

/// The status that tells that arrays stand for no program.
const NOT_BUILT: u32 = 9;

/// How much room a text has at first, in bytes, a path, in hops, and what stands around a remark.
const ROOM: usize = 65_536;
const HOPS: usize = 4_096;
const NEARBY: usize = 64;

/// Stands for what is not there.
pub(crate) const NONE: u32 = u32::MAX;

fn answered(status: u32) -> Result<(), Error> {
    match status {
        0 => Ok(()),
        2 => Err(Error::OutOfMemory),
        4 => Err(Error::BadRange),
        21 => Err(Error::TooManyPoints),
        22 => Err(Error::TooManyBits),
        other => unreachable!("status {other} answers room, a number or a handle that this crate does not hand over"),
    }
}

/// A part of the report on a text's program, and of how many.
pub fn report_part(text: &[u8], limits: Limits, part: u32, count: u32) -> Result<Vec<u8>, Error> {
    let (mut size, mut place) = (ROOM, Place::default());
    loop {
        let mut bytes = vec![0; size];
        // SAFETY: the pointers and lengths are of slices and values that outlive the call.
        let status = unsafe {
            tacflow_c_report_part(
                text.as_ptr(),
                text.len(),
                limits as u32,
                part,
                count,
                bytes.as_mut_ptr(),
                bytes.len(),
                &mut size,
                &mut place,
            )
        };
        if status == 1 {
            return Err(Error::Refused { number: place.number, line: place.line, column: place.column });
        }
        if status != BAD_ROOM {
            answered(status)?;
            bytes.truncate(size);
            return Ok(bytes);
        }
    }
}

/// A program that the library keeps: an open handle, which is closed when it is dropped. Each call borrows it alone, so it is in one call
/// at a time.
pub(crate) struct Handle {
    raw: RawHandle,
}

// SAFETY: an open handle may be used by another thread, one call at a time (tacflow.h, rules 3 and 4 of handles).
unsafe impl Send for Handle {}

impl fmt::Debug for Handle {
    fn fmt(&self, f: &mut fmt::Formatter<'_>) -> fmt::Result {
        f.debug_struct("Handle").finish_non_exhaustive()
    }
}

impl Drop for Handle {
    fn drop(&mut self) {
        // SAFETY: the handle is open, as each value of this type is, and nothing uses it behind this call.
        unsafe { tacflow_c_close(&mut self.raw) };
    }
}

impl Handle {
    pub fn open(text: &[u8], limits: Limits) -> Result<Handle, Error> {
        let (mut raw, mut place) = (CLOSED, Place::default());
        // SAFETY: the pointers are of a slice and of two values, all of which outlive the call; the handle is closed.
        let status = unsafe { tacflow_c_open(text.as_ptr(), text.len(), limits as u32, &mut raw, &mut place) };
        if status == 1 {
            return Err(Error::Refused { number: place.number, line: place.line, column: place.column });
        }
        answered(status).map(|()| Handle { raw })
    }

    pub fn build(it: &RawArrays, limits: Limits) -> Result<Handle, Error> {
        let (mut raw, mut place) = (CLOSED, BuildPlace::default());
        let (procedures, variables, labels) = (&it.procedure_names, &it.variable_names, &it.label_names);
        // SAFETY: the pointers and lengths are of slices and values that outlive the call; the handle is closed.
        let status = unsafe {
            tacflow_c_build(
                it.procedures.as_ptr(),
                it.procedures.len(),
                it.statements.as_ptr(),
                it.statements.len(),
                it.labels.as_ptr(),
                it.labels.len(),
                it.callees.as_ptr(),
                it.callees.len(),
                procedures.ends.as_ptr(),
                procedures.ends.len(),
                procedures.bytes.as_ptr(),
                procedures.bytes.len(),
                variables.ends.as_ptr(),
                variables.ends.len(),
                variables.bytes.as_ptr(),
                variables.bytes.len(),
                labels.ends.as_ptr(),
                labels.ends.len(),
                labels.bytes.as_ptr(),
                labels.bytes.len(),
                limits as u32,
                &mut raw,
                &mut place,
            )
        };
        if status == NOT_BUILT {
            return Err(Error::NotBuilt { fault: place.fault, number: place.number });
        }
        answered(status).map(|()| Handle { raw })
    }

    /// A further handle of what this one keeps, which is not copied.
    pub fn share(&mut self) -> Result<Handle, Error> {
        let mut raw = CLOSED;
        // SAFETY: the first handle is open and the other one closed, and both outlive the call.
        let status = unsafe { tacflow_c_share(&mut self.raw, &mut raw) };
        answered(status).map(|()| Handle { raw })
    }

    pub fn sizes(&mut self) -> Result<Sizes, Error> {
        let mut sizes = Sizes::default();
        // SAFETY: the pointers are of two values that outlive the call.
        let status = unsafe { tacflow_c_sizes_of(&mut self.raw, &mut sizes) };
        answered(status).map(|()| sizes)
    }

    fn rows<T: Clone + Default>(&mut self, call: RowsCall, count: u32) -> Result<Vec<T>, Error> {
        let mut rows = vec![T::default(); count as usize];
        // SAFETY: `call` writes `count` values of `T`, of which `rows` has room for so many.
        let status = unsafe { call(&mut self.raw, rows.as_mut_ptr().cast(), rows.len()) };
        answered(status).map(|()| rows)
    }

    pub fn points(&mut self, count: u32) -> Result<Vec<Point>, Error> {
        self.rows(tacflow_c_points_of, count)
    }

    pub fn definitions(&mut self, count: u32) -> Result<Vec<RawDefinition>, Error> {
        self.rows(tacflow_c_definitions_of, count)
    }

    pub fn expressions(&mut self, count: u32) -> Result<Vec<RawExpression>, Error> {
        self.rows(tacflow_c_expressions_of, count)
    }

    fn names(&mut self, call: NamesCall, count: u32) -> Result<Vec<String>, Error> {
        let mut ends = vec![0; count as usize];
        let mut bytes = vec![0; count as usize * crate::LONGEST_NAME];
        // SAFETY: the pointers and lengths are of slices that outlive the call.
        let status = unsafe { call(&mut self.raw, ends.as_mut_ptr(), ends.len(), bytes.as_mut_ptr(), bytes.len()) };
        answered(status)?;
        let starts = std::iter::once(0).chain(ends.iter().copied());
        Ok(starts.zip(&ends).map(|(start, &end)| String::from_utf8_lossy(&bytes[start..end]).into_owned()).collect())
    }

    pub fn procedures(&mut self, count: u32) -> Result<Vec<String>, Error> {
        self.names(tacflow_c_procedures_of, count)
    }

    pub fn variables(&mut self, count: u32) -> Result<Vec<String>, Error> {
        self.names(tacflow_c_variables_of, count)
    }

    pub fn facts(
        &mut self,
        analysis: Analysis,
        points: Range<u32>,
        bits: Range<u32>,
        flags: &mut [u8],
        words: &mut [u64],
    ) -> Result<(), Error> {
        // SAFETY: the pointers and lengths are of slices that outlive the call.
        let status = unsafe {
            tacflow_c_facts_of(
                &mut self.raw,
                analysis as u32,
                points.start,
                points.end,
                bits.start,
                bits.end,
                flags.as_mut_ptr(),
                flags.len(),
                words.as_mut_ptr(),
                words.len(),
            )
        };
        answered(status)
    }

    pub fn words(&mut self, queries: &[Query]) -> Result<Vec<u64>, Error> {
        let mut words = vec![0; queries.len()];
        // SAFETY: the pointers and lengths are of slices that outlive the call.
        let status =
            unsafe { tacflow_c_ask(&mut self.raw, queries.as_ptr(), queries.len(), words.as_mut_ptr(), words.len()) };
        answered(status).map(|()| words)
    }

    pub fn has_path(&mut self, analysis: Analysis, points: Range<u32>) -> Result<Vec<u8>, Error> {
        let mut flags = vec![0; points.len()];
        // SAFETY: the pointer and the length are of a slice that outlives the call.
        let status = unsafe {
            tacflow_c_has_path(&mut self.raw, analysis as u32, points.start, points.end, flags.as_mut_ptr(), flags.len())
        };
        answered(status).map(|()| flags)
    }

    pub fn doubtful(&mut self, points: Range<u32>) -> Result<Vec<u8>, Error> {
        let mut flags = vec![0; points.len()];
        // SAFETY: the pointer and the length are of a slice that outlives the call.
        let status =
            unsafe { tacflow_c_doubtful(&mut self.raw, points.start, points.end, flags.as_mut_ptr(), flags.len()) };
        answered(status).map(|()| flags)
    }

    pub fn statements(&mut self, count: u32) -> Result<Vec<RawStatement>, Error> {
        self.rows(tacflow_c_statements, count)
    }

    // A list that is made whole: where there is too little room the call tells how long it is.
    fn made<T: Clone + Default>(
        &mut self,
        room: usize,
        mut call: impl FnMut(&mut RawHandle, &mut [T], &mut usize) -> u32,
    ) -> Result<Vec<T>, Error> {
        let mut size = room;
        loop {
            let mut list = vec![T::default(); size];
            let status = call(&mut self.raw, &mut list, &mut size);
            if status != BAD_ROOM {
                list.truncate(size);
                return answered(status).map(|()| list);
            }
        }
    }

    pub fn edges(&mut self, points: Range<u32>) -> Result<Vec<RawEdge>, Error> {
        self.made(2 * points.len(), |handle, edges, count| {
            // SAFETY: the pointers and lengths are of slices and values that outlive the call.
            unsafe { tacflow_c_edges(handle, points.start, points.end, edges.as_mut_ptr(), edges.len(), count) }
        })
    }

    pub fn remarks(&mut self, room: u32) -> Result<Vec<RawRemark>, Error> {
        self.made(room as usize, |handle, remarks, count| {
            // SAFETY: the pointers and lengths are of slices and values that outlive the call.
            unsafe { tacflow_c_remarks(handle, remarks.as_mut_ptr(), remarks.len(), count) }
        })
    }

    pub fn around(&mut self, remark: &RawRemark) -> Result<Vec<RawNearby>, Error> {
        self.made(NEARBY, |handle, nearby, count| {
            // SAFETY: the pointers and lengths are of slices and values that outlive the call.
            unsafe { tacflow_c_around(handle, remark, nearby.as_mut_ptr(), nearby.len(), count) }
        })
    }

    pub fn doubt_origin(&mut self, point: u32) -> Result<Option<u32>, Error> {
        let mut origin = NONE;
        // SAFETY: the pointers are of two values that outlive the call.
        let status = unsafe { tacflow_c_doubt_origin(&mut self.raw, point, &mut origin) };
        answered(status).map(|()| (origin != NONE).then_some(origin))
    }

    /// The hops of a path, or none; `points` is how many the program has.
    pub fn why(&mut self, points: u32, analysis: Analysis, point: u32, bit: u32) -> Result<Option<Vec<RawHop>>, Error> {
        let mut has = 0;
        let hops = self.made(HOPS.min(2 * points as usize), |handle, hops: &mut [RawHop], count| {
            // SAFETY: the pointers and lengths are of slices and values that outlive the call.
            unsafe { tacflow_c_why(handle, analysis as u32, point, bit, hops.as_mut_ptr(), hops.len(), count, &mut has) }
        })?;
        Ok((has == 1).then_some(hops))
    }

    /// The hops of paths of all bits, one after the other; of each bit it is told whether it has a path, and where its hops end.
    pub fn whys(&mut self, analysis: Analysis, bits: &mut [RawBit]) -> Result<Vec<RawHop>, Error> {
        self.made(HOPS, |handle, hops: &mut [RawHop], count| {
            // SAFETY: the pointers and lengths are of slices and values that outlive the call.
            unsafe {
                tacflow_c_whys(handle, analysis as u32, bits.as_mut_ptr(), bits.len(), hops.as_mut_ptr(), hops.len(), count)
            }
        })
    }

    fn text(&mut self, call: TextCall) -> Result<Vec<u8>, Error> {
        self.made(ROOM, |handle, bytes, size| {
            // SAFETY: the pointers and lengths are of slices and values that outlive the call.
            unsafe { call(handle, bytes.as_mut_ptr(), bytes.len(), size) }
        })
    }

    pub fn listing(&mut self) -> Result<Vec<u8>, Error> {
        self.text(tacflow_c_listing_of)
    }

    pub fn report(&mut self) -> Result<Vec<u8>, Error> {
        self.text(tacflow_c_report_of)
    }
}
