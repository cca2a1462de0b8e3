# Builds the indexes of a collection by GNU make:
#
#   make -j 4 -f examples/cluster/build.mk COLLECTION=notes.tsv WORK=work [CUT='--bytes N --together K --fan-in M --stop FILE']
#
# Each step is tried three times. What was made stands, so the same words once more go on where a build was cut off.
# The indexes are WORK/i0000.ix and so on.
ifeq ($(and $(COLLECTION),$(WORK)),)
$(error name COLLECTION= and WORK=, as the head of this file says)
endif
HERE := $(dir $(realpath $(lastword $(MAKEFILE_LIST))))
STEP := $(HERE)pieces.py
TRIED = $(1) || $(1) || $(1)

.PHONY: all
.DELETE_ON_ERROR:
all:

# the plan has to be there before the rest of this file makes sense, so make makes it first, and then begins anew
$(WORK)/plan.mk:
	@$(STEP) cut $(COLLECTION) $(WORK) $(CUT)
	@echo "PIECES = $$($(STEP) list $(WORK) | tr '\n' ' ')" > $@
	@echo "GROUPS = $$($(STEP) groups $(WORK) | tr '\n' ' ')" >> $@
	@echo "INDEXES = $$($(STEP) indexes $(WORK) | tr '\n' ' ')" >> $@
include $(WORK)/plan.mk

all: $(INDEXES:%=$(WORK)/%.ix)

$(PIECES:%=$(WORK)/%.count): $(WORK)/%.count: $(WORK)/plan.mk
	@$(call TRIED,$(STEP) count $(WORK) $*)

$(WORK)/first: $(PIECES:%=$(WORK)/%.count)
	@$(STEP) number $(WORK)

$(PIECES:%=$(WORK)/%.run): $(WORK)/%.run: $(WORK)/first
	@$(call TRIED,$(STEP) run $(WORK) $*)

$(GROUPS:%=$(WORK)/%.ix): $(WORK)/%.ix: $(PIECES:%=$(WORK)/%.run)
	@$(call TRIED,$(STEP) merge $(WORK) $*)

$(INDEXES:%=$(WORK)/%.ix): $(WORK)/%.ix: $(PIECES:%=$(WORK)/%.run) $(GROUPS:%=$(WORK)/%.ix)
	@$(call TRIED,$(STEP) merge $(WORK) $*)
