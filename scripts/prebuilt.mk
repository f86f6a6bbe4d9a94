# SPDX-License-Identifier: Apache-2.0
# For Makefiles that build from prebuilt/. They set TEXT to the text that they need, PROCESSOR and CC to what it is for and assembled
# by, and TOP to the top of the checkout, and then include this file. TEXT_FLAGS are flags to assemble a text with. STATE=fresh on
# the command line says that scripts/prebuilt.sh was asked already.
ifndef STATE
STATE := $(shell $(TOP)/scripts/prebuilt.sh state)
endif

# On x86-64 the assembler is asked that no jump crosses a multiple of 32 bytes or ends at one, since Intel's processors from Skylake
# to Comet Lake (2015 to 2020) run such jumps slowly. The assembler of GNU has a flag for it, and clang another. Older ones have none.
# TEXT_FLAGS= on the command line leaves it out.
JUMPS := -mbranches-within-32B-boundaries
TEXT_FLAGS = $(if $(filter x86_64,$(PROCESSOR)),$(shell object=$$(mktemp) || exit; \
	for flag in -Wa,$(JUMPS) $(JUMPS); do \
		if $(CC) $$flag -c -x assembler -o "$$object" /dev/null 2>/dev/null; then echo $$flag; break; fi; \
	done; rm -f "$$object"))

NO_RT := a proved source has changed since prebuilt/ was made, and the command rt, which proves it again, is not on the path
AGAIN := a proved source has changed since prebuilt/ was made, so it is proved again, which takes minutes
DAMAGED := a file of prebuilt/ is not as it was made. To get it back: git checkout prebuilt
NO_TEXT := prebuilt/ has no text for this processor, only for $(notdir $(wildcard $(TOP)/prebuilt/*64))
# The text for another system than Linux on x86-64 and 64-bit ARM is not in a checkout.
FOLDER := $(notdir $(patsubst %/,%,$(dir $(firstword $(TEXT)))))
OTHER := $(if $(findstring -,$(FOLDER)),$(FOLDER))
OTHER_STATE := $(if $(OTHER),$(shell $(TOP)/scripts/prebuilt.sh text $(OTHER)))
NO_OTHER := a checkout has no text for $(OTHER). The source package of a release has it; and where the command rt is, make texts makes it
STALE_OTHER := prebuilt/$(OTHER)/libhll_c.s is not the text that prebuilt/VERDICT names, but of another commit. Take all files from one source package

ifeq ($(STATE),stale)
.PHONY: proved-again
proved-again:
	@command -v rt >/dev/null || { echo 'make: $(NO_RT)' >&2; exit 1; }
	@echo 'make: $(AGAIN)'
	python3 $(TOP)/scripts/prebuilt.py --prove
$(TEXT): proved-again ;
else ifneq ($(STATE),fresh)
.PHONY: damaged
damaged:
	@echo 'make: $(DAMAGED)' >&2; exit 1
$(TEXT): damaged ;
else ifneq ($(filter none stale,$(OTHER_STATE)),)
.PHONY: no-text
no-text:
	@echo 'make: $(if $(filter none,$(OTHER_STATE)),$(NO_OTHER),$(STALE_OTHER))' >&2; exit 1
$(TEXT): no-text ;
else ifneq ($(words $(wildcard $(TEXT))),$(words $(TEXT)))
.PHONY: no-text
no-text:
	@echo 'make: $(NO_TEXT)' >&2; exit 1
$(TEXT): no-text ;
endif
