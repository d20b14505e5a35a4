# Included by the Makefile of each engine: how the compiler finds the library for C. LIBRARY may name a folder that
# tools/build-library wrote; else the installed library is taken, as pkg-config finds it. RPATH may name the folder in
# which the loader looks for it.
ifdef LIBRARY
CHECKER = -I$(LIBRARY)/include
LINKED = -L$(LIBRARY)/lib -lurlcheck $(if $(RPATH),-Xlinker -rpath -Xlinker '$(RPATH)')
else
CHECKER = $(shell pkg-config --cflags urlcheck)
LINKED = $(shell pkg-config --libs urlcheck)
endif
