# make install PREFIX=FOLDER copies the built program and what belongs to it; make uninstall takes it away again.
# make test tries all that is around the built program. The proofs and all tests: .ci/run.
PREFIX = /usr/local
DESTDIR =
PROGRAM = crates/subtypep_app/out/subtypep_app

to = $(DESTDIR)$(PREFIX)
home = $(to)/lib/selvdrik
man = $(to)/share/man/man1
bash = $(to)/share/bash-completion/completions
zsh = $(to)/share/zsh/site-functions
lisp = $(to)/share/common-lisp/source/selvdrik

help:
	@sed -n '1,2s/^# //p' Makefile

built:
	@[ -x $(PROGRAM) ] || { echo 'the program is not built: ./selvdrik ask builds it' >&2; exit 1; }

install: built
	mkdir -p "$(to)/bin" "$(home)/tool" "$(man)" "$(bash)" "$(zsh)" "$(lisp)"
	cp $(PROGRAM) selvdrik "$(home)/"
	cp tool/*.awk tool/kinds.txt "$(home)/tool/"
	chmod 755 "$(home)/selvdrik" "$(home)/subtypep_app"
	ln -sf ../lib/selvdrik/selvdrik "$(to)/bin/selvdrik"
	cp docs/selvdrik.1 "$(man)/"
	cp completions/selvdrik.bash "$(bash)/selvdrik"
	cp completions/_selvdrik "$(zsh)/"
	cp lisp/*.lisp lisp/selvdrik.asd "$(lisp)/"

uninstall:
	rm -rf "$(home)" "$(lisp)"
	rm -f "$(to)/bin/selvdrik" "$(man)/selvdrik.1" "$(bash)/selvdrik" "$(zsh)/_selvdrik"

test: built
	sh .ci/wrapper.sh $(PROGRAM)
	sh .ci/lisp.sh $(PROGRAM)
	sh .ci/page.sh
	sh .ci/editors.sh $(PROGRAM)

.PHONY: help built install uninstall test
