#!/bin/sh
# Finds misspellings: by codespell in all texts of the repository, also in code, and by aspell in documents, manuals and comments, and in
# what programs and the page write.
#
# tier: text, 5 seconds; needs: codespell aspell;
# for: docs README.md CONTRIBUTING.md CHANGES.md Makefile man examples crates include packaging page tests tools .ci
set -u
cd "$(dirname "$0")/../.."
for tool in codespell aspell; do command -v $tool >/dev/null || { echo "skipped: $tool is not there"; exit 0; }; done
code='Makefile crates examples include packaging page tests tools .ci'
texts="$(echo ./*.md) $code docs man"
# what is a word here: of Rust, of C, of mdoc(7), of definitions, and the parts of regular expressions
spell() {
    codespell -q 3 -L crate,nd,fo,datas,te,ue,hastable,nnumber,ndoes,hoever,als,statics,matc "$@"
}
# what is a word here in prose, beside those of English: of programmers, and names
known='alloc allocator alsc antt aout aspell backend bhis binaryen binutils callee callgrind cmark codespell comparer config ctypes debian
    debootstrap destructor disassembler disassemblies dpkg edata encoding enum etext fadd faketime fdiv fixup glibc groff hasher indir libc
    liblibc liblibv libiberty libv linksem lintian makefile malloc mandoc manylinux mdoc mfps mfpt mtps mypy prover realloc reimplements
    relinker rustc simh soname stderr stdin stdint stdout strace struct subcommand tstset usize valgrind venv wrtlck xffffffff zlib
    frob nofile rlwrap typeof coq dafny kell kumar myreen norrish sewell shao wilke toolchain wasm'
# documents and manuals without code, lines of comments, and texts with a blank between two words, of programs and of the page
prose() {
    find $texts -name '*.md' -exec sed -E 's/`[^`]*`//g; /^    /d; s/\]\([^)]*\)//g' {} +
    sed -E '/^\.Bd/,/^\.Ed/d; /^\./d; s/\\f.//g' man/*
    grep -rhE --include='*.rt' --include='*.antt' --include='*.py' --include='*.sh' --include='*.[ch]' --include='*.js' --include='*.case' \
        --include=Makefile --exclude-dir=out '^ *(//[/!]?|--|#|/?\*) ' $code | sed -E 's/`[^`]*`//g'
    { grep -rohE --include='*.rt' --include='*.js' "([\"\`])[^\"\`]*[a-z] [a-z][^\"\`]*\1" crates page
        grep -ohE '(title|aria-label|placeholder)="[^"]*"' page/body.html | sed 's/^[a-z-]*=//'
        cat page/body.html; } | sed -E 's/\$?\{[^}]*\}/ /g; s/\\[nt]/ /g; s/<[^>]*>/ /g'
}
# the words of more than three letters that are not known; what has a capital inside is a name of the code
unknown() {
    sed "s/'s\b//g" | aspell list -l en --ignore=3 | grep -v '.[A-Z]' | sort -u | grep -vixE "($(echo $known | tr ' ' '|'))s?"
}
! printf 'planted: mis%s\n' pelling | spell - >/dev/null && [ "$(echo 'wehre a word is' | unknown)" = wehre ] ||
    { echo "a misspelling is not noticed"; exit 1; }
spell -S __pycache__,out $texts
status=$?
for word in $(prose | unknown); do
    grep -rnwF --exclude-dir=out "$word" $texts
    echo "aspell does not know $word: a misspelling, or a word for the list of tests/texts/spelling.sh"
    status=1
done
[ $status -ne 0 ] || echo "no text has a word that codespell or aspell finds to be wrong"
exit $status
