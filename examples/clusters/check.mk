# Remarks on the C files below this folder, in shares: make -j 8 -f check.mk, and then cat facts/remarks.
# A file is looked at again where it changed, or a header that it reads. CFLAGS are gcc's words.
CHECK_C ?= check-c
CFLAGS ?=
SOURCES := $(shell find . -name facts -prune -o -name '*.c' -printf '%P\n')
FACTS := $(SOURCES:%.c=facts/%.facts)

facts/remarks: $(FACTS)
	$(file >$@.list,$(FACTS))
	$(CHECK_C) --merge @$@.list >$@.new
	mv $@.new $@

facts/%.facts: %.c
	@mkdir -p $(@D)
	$(CHECK_C) $(CFLAGS) --emit $@ -MD $@.d $<

-include $(FACTS:=.d)
