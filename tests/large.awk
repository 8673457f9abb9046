# Prints a sheet of more than 100 KB in which each kind of construct is also long, as it is written, or with `loose=1` with white
# space, comments and empty declarations between its tokens, which are written away.
function both(tight, with_space) { printf "%s", loose ? with_space : tight }

function same(text) { printf "%s", text }

function open() { both("{", "\n{ /* a block */ ; ") }

function close_block() { both("}\n", " ; }\n\n/* next */ empty , .rule { }\n") }

function long_name(begin,    i) {
    same(begin)
    for (i = 0; i < 10; i++) same("az-_0123456789abcdef")
}

function selectors(    i) {
    same("a")
    for (i = 1; i < 40; i++) { both(",", " ,\n\t"); same("#b" i) }
    open(); both("top:0", "top : 0"); close_block()
}

function compound(    i) {
    same("p")
    for (i = 0; i < 10; i++) {
        same(".c" i); both("", "/* c */"); both("[d" i "=\"e\"]", "[ d" i " = e ]"); both(":not(.f" i ")", ":NOT( .f" i " )")
    }
    both("::after:hover", ":AFTER:Hover")
    open(); both("left:auto!important", "LEFT: auto  ! IMPORTANT "); close_block()
}

function combinators(    i) {
    same("*")
    for (i = 0; i < 10; i++) { both(" ", " \n "); same("d" i); both(">.e+p~q", " > .e /**/+ p\t~\nq") }
    open(); same("right:1px"); close_block()
}

function names() {
    long_name(".n"); open(); long_name("p"); both(":", " : "); long_name("v"); close_block()
}

function escapes(    i) {
    both(".\\31 ", ".\\000031 ")
    for (i = 0; i < 40; i++) both("é", "\\e9 ")
    open(); same("content:\"")
    for (i = 0; i < 40; i++) same("ü\\\"")
    same("\""); close_block()
}

function declarations(    i) {
    same("div"); open(); same("p0:0")
    for (i = 1; i < 300; i++) { both(";", " ;\n  ; "); same("p" i); both(":", ": "); same(i) }
    close_block()
}

function values(    i) {
    same("b"); open(); same("grid:0")
    for (i = 1; i < 1001; i++) { both(" ", " \n /* c */ "); same(i) }
    close_block()
}

function blocks(    i) {
    same("i"); open(); same("--deep:")
    for (i = 0; i < 20; i++) same("f" i "([{")
    same("0")
    for (i = 0; i < 20; i++) same("}])")
    close_block()
}

BEGIN {
    for (n = 0; n < 20; n++) {
        selectors(); compound(); combinators(); names(); escapes(); declarations(); values(); blocks()
    }
}
