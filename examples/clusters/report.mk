# The report on a large program in parts: make -j 8 -f report.mk PROGRAM=program.tac, and then cat parts/report.
# All parts are written again where the program changed. PARTS says how many parts.
TACVIEW ?= tacview
PARTS ?= 8
WRITTEN := $(shell seq -f 'parts/%g-of-$(PARTS)' $(PARTS))

parts/report: $(WRITTEN)
	$(TACVIEW) --merge $(WRITTEN) >$@.new
	mv $@.new $@

parts/%-of-$(PARTS): $(PROGRAM)
	@mkdir -p $(@D)
	$(TACVIEW) --format report --limits large --part $*/$(PARTS) <$< >$@.new
	mv $@.new $@
