# Tests and installs figgroup, without a proof: bin/ has the proved program.
#
#   make check                                    all tests that need no kit of Rattle; installs by apt-get what they take
#   make install [PREFIX=/usr/local] [DESTDIR=]   the program, draw, the page, what draw uses, manual pages, completions,
#                                                 the pages and examples
#   make deb [TO=.]                               a Debian package of these, figgroup_VERSION_amd64.deb

PREFIX ?= /usr/local
DESTDIR ?=
TO ?= .
at = $(DESTDIR)$(PREFIX)
number = $(shell bin/figgroup --version | cut -d ' ' -f 2)
commit = $(shell git log -1 --format=%cd.%h --date=format:%Y%m%d)
version = $(number)+$(commit)

# Of a link to what the repository alone has, as sources, the words stay.
unlinked = s/\[([^]]*)\]\((\.\.\/)?(bench|crates|tools)\/[^)]*\)/\1/g

.PHONY: check install deb

check:
	tests/tools.sh
	tests/check.py

install:
	./prove --check
	install -d $(at)/bin $(at)/share/figgroup/page/web $(at)/share/figgroup/draw $(at)/share/doc/figgroup/docs/pictures
	install bin/figgroup bin/draw $(at)/bin
	install -m 644 share/figgroup/* $(at)/share/figgroup
	install -m 644 page/*.py $(at)/share/figgroup/page
	install -m 644 draw/*.py $(at)/share/figgroup/draw
	/usr/bin/python3 -m compileall -q -s '$(DESTDIR)' --invalidation-mode unchecked-hash $(at)/share/figgroup/draw $(at)/share/figgroup/page
	install -m 644 page/web/* $(at)/share/figgroup/page/web
	install -m 644 bin/figgroup.sum $(at)/share/doc/figgroup
	install -m 644 docs/pictures/*.svg docs/pictures/*.png $(at)/share/doc/figgroup/docs/pictures
	cp -R examples $(at)/share/doc/figgroup
	for page in README.md docs/*.md; do sed -zE '$(unlinked)' $$page > $(at)/share/doc/figgroup/$$page; done
	chmod -R u=rwX,go=rX $(at)/share/figgroup $(at)/share/doc/figgroup
	install -d $(at)/share/man/man1 $(at)/share/bash-completion/completions
	install -m 644 share/man/* $(at)/share/man/man1
	install -m 644 share/bash-completion/figgroup $(at)/share/bash-completion/completions
	ln -sf figgroup $(at)/share/bash-completion/completions/draw

define control
Package: figgroup
Version: $(version)
Architecture: amd64
Maintainer: the figgroup project <figgroup@localhost>
Depends: libc6 (>= 2.34), python3 (>= 3.9)
Recommends: xfig, git, netpbm, python3-tornado
Suggests: fig2dev, jq
Section: graphics
Priority: optional
Description: figures drawn by a group, by a proved program
 Up to eight designers change one drawing, and files carry the changes. No edit
 is lost, conflicting edits become versions of an object, and whoever has the
 same edits has the same picture.
endef

export control
deb:
	@git rev-parse -q --verify HEAD > /dev/null || \
	    { echo "make deb: the version has the day and the commit of git: take git, and a clone" >&2; exit 1; }
	package=$$(mktemp -d) && trap 'rm -rf "$$package"' EXIT && chmod 755 "$$package" && \
	    $(MAKE) install DESTDIR="$$package" PREFIX=/usr && \
	    install -d "$$package/DEBIAN" && printf '%s\n' "$$control" > "$$package/DEBIAN/control" && \
	    dpkg-deb --root-owner-group -b "$$package" $(TO)/figgroup_$(version)_amd64.deb
