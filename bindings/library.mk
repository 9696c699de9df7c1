# What the Makefiles beside this folder share: the built library, and its header.
#
# KAFTANCLAY_ARCHIVE names a libkaftanclay.a that is built already, by its whole path; `pkg-config` names that of the installed
# library. Then nothing is proved, and the toolchain isn't needed. ARCHIVE is its path; INCLUDES finds the header, and HEADER is its
# file, if it is the one of this repository.

ifeq ($(KAFTANCLAY_ARCHIVE),pkg-config)
ARCHIVE := $(shell pkg-config --variable=libdir kaftanclay)/libkaftanclay.a
INCLUDES := $(shell pkg-config --cflags kaftanclay)
HEADER =
ifeq ($(ARCHIVE),/libkaftanclay.a)
$(error KAFTANCLAY_ARCHIVE: pkg-config finds no kaftanclay; install libkaftanclay-dev, or name its folder in PKG_CONFIG_PATH)
endif
else
ARCHIVE := $(KAFTANCLAY_ARCHIVE)
INCLUDES = -I../../include
HEADER = ../../include/kaftanclay.h
endif
