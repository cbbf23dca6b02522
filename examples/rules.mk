# Selects the lines of one description file for each of some boards:
#
#   make -f rules.mk DESCRIPTION=Buoy.dsc BOARDS='spar drifter'
#
# reads Buoy.dsc with settings/spar.settings and settings/drifter.settings, and writes build/spar.dsc and build/drifter.dsc. A Makefile that
# includes this file sets DESCRIPTION and BOARDS before.
#
# A DEFINE line of the description wins over the settings of every board; between `!ifndef NAME` and `!endif` it is a default.
#
# A run that fails leaves no output. The old one is removed first, and `-o` writes a file whole or not at all; with `>` a refusal would leave
# an empty file, which the next make would take for made.

KORZHINAY ?= korzhinay
SETTINGS ?= settings
BUILD ?= build
# new refuses bare words and `!ifdef $(NAME)`, old accepts them.
EDITION ?= old
# --strict makes notes failures, --quiet gives none, --warn-old gives more: on what EDITION=new would refuse.
NOTES ?=

.PHONY: boards
boards: $(BOARDS:%=$(BUILD)/%.dsc)

$(BOARDS:%=$(BUILD)/%.dsc): $(BUILD)/%.dsc: $(DESCRIPTION) $(SETTINGS)/%.settings
	@mkdir -p $(@D)
	@rm -f $@
	$(KORZHINAY) select --edition $(EDITION) $(NOTES) -s $(SETTINGS)/$*.settings -o $@ $(DESCRIPTION)
