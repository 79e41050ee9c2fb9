# In the repository: works on dist-out/haythaw-VERSION, the unpacked tarball, which ./dist makes where it is not there or no longer of these
# files (./dist needs the proof kit; the rest does not); dist-out/current names it. The words for it are in bind/c/package/Makefile: PREFIX, DESTDIR, CC and others.
#
#   make, make check, make install, make uninstall, make clean    in that folder
#   make dist                                                     the folder and the tarball

all check install uninstall:
	@./dist --unless-made
	@cd "dist-out/`cat dist-out/current`" && $(MAKE) $@

dist:
	@./dist

clean:
	@[ ! -f dist-out/current ] || { cd "dist-out/`cat dist-out/current`" && $(MAKE) clean; }

.PHONY: all check install uninstall clean dist
