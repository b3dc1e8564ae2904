# Generates texts of any size for bench/run and bench/instructions: shell functions that write to standard output; source this file.

# A program of $1 KiB: classes of five methods, and Main.
cool_text() {
    awk -v most="$(($1 * 1024 - 200))" 'BEGIN {
        for (c = 0; size < most; c++) {
            text = "class C" c " inherits IO {\n  total : Int <- 0;\n  name : String <- \"class " c "\";\n"
            for (m = 0; m < 5; m++)
                text = text "  m" m "(a : Int, b : Int) : Int {\n    if a < b then a + b * " m " else {\n" \
                    "      total <- total + a;\n      let c : Int <- a - b in while 0 < c loop c <- c - 1 pool;\n" \
                    "      out_string(name.concat(\"\\n\")); total;\n    } fi\n  };\n"
            text = text "};\n"; size += length(text); printf "%s", text
        }
        print "class Main { main() : Object { 0 }; };"
    }'
}

# An assembly text of $1 thousand lines with an error in the last one, so that it is read and not run.
text_of() {
    awk -v most="$1" 'BEGIN { for (i = 0; i < most * 250; i++) printf "l%d: addiu $t0, $t1, %d\n lw $t2, 8($sp)\n bne $t0, $t2, l%d # back\n\n", i, i % 999, i; print "oops" }'
}

# The input of a session: a file $2 of $1 KiB, a check, and the end.
session_of() {
    cool_text "$1" >"$2"
    printf 'file a.cl %d\n' "$(wc -c <"$2")" | cat - "$2"
    printf 'check\nquit\n'
}
