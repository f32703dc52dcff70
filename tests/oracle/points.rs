// Texts by hand with the answer that documents 01 and 02 give each (0: read), and every short sequence of fragments.
use crate::limits::sizes;

// Document 01's netlists worked by hand, those that are read.
const CASES: &[(u32, &str)] = &[
    (0, ""),
    (0, ".model m\n.inputs a b\n.outputs y\n.names a b y\n11 1\n.end\n"),
    (0, ".outputs y\n.names y\n"),
    (0, ".outputs y\n.names y\n1\n"),
    (0, ".inputs a b\n.outputs y\n.names a b y\n00 0\n11 0\n"),
    (0, ".inputs a\\\nb\n"),
    (0, ".inputs a #\\\n.outputs a\n"),
    (0, ".names b a\n- 1\n.names a b\n1 1\n"),
    (14, ".names b a\n1 1\n.names a b\n1 1\n"),
    (0, ".model m\n.end\n.inputs a\n"),
    (0, ".exdc\n.names\n"),
    (5, ".exdc\n.names\n.gate\n"),
    (0, ".inputs i0 i1\n.outputs x0_n i0_n i1_n\n.names i0 x0\n1 1\n.names x0 x0_n\n0 1\n.names i1 i1_n\n0 1\n.names i0 i0_n\n0 1\n"),
    (0, ".outputs x0\n.names x0\n 0\n.names vdd\n1\n.names gnd\n"),
];

const LINES: &[(u32, &str)] = &[
    // a CR at the end of the file stays, a blank; one CR before LF goes
    (11, ".outputs a\n.inputs a\\\r"),
    (0, ".outputs b\n.inputs a\\\r\nb\n"),
    (11, ".outputs a\n.inputs a\\\r\r\nb\n"),
    (0, ".outputs b\n.inputs a\rb\n"),
    (0, ".outputs b\r\n.inputs a\r\n.names a b\r\n1 1\r\n"),
    // a continuation at the end of the file, two backslashes
    (0, ".outputs a\n.inputs a\\"),
    (0, ".outputs a\n.inputs a\\\n"),
    (0, ".outputs a\\ b\n.inputs a\\\\\nb"),
    // a backslash before a blank or a comment belongs to its token
    (12, ".inputs a\n.names a y\n1 1 \\ "),
    (11, ".outputs a\n.inputs a\\ \nb"),
    (0, ".outputs a\\ \n.inputs a\\#x\nb"),
    (11, ".outputs b\n.inputs a\\#x\nb"),
    // a comment cuts a token; an empty line ends a statement; a continuation parts two tokens
    (0, ".model m\n.end#x"),
    (11, ".inputs a\\\n\nb\n.outputs b"),
    (0, ".inputs a\\\n\\\nb\n.outputs b"),
    (5, ".inp\\\nuts a"),
    (0, ".inputs a\\\n# c\\\n.outputs a"),
    (0, ".inputs a\\\n.outputs b\n.outputs .outputs b"),
    // bytes that names may have, and blanks
    (0, ".inputs \x00 \x1c \x1d\x1e\x1f \x7f\n.outputs \x7f \x1d\x1e\x1f \x1c \x00"),
    (0, "\x0b.inputs\x0ca\x0bb\tc\n.outputs c\x0cb a"),
    // keywords byte for byte
    (5, "."),
    (5, ".MODEL m"),
    (5, ".names\\ a"),
    (5, ".input a"),
    (5, ".inputsa"),
    (0, "\\.foo"),
    (5, ".inputs a\n.names a y\n.1 1"),
    (0, ".inputs .a\n.names .a .y\n1 1\n.outputs .y"),
    (0, ".inputs .names .end\n.outputs .end .names"),
    // nothing but blanks, comments, stray lines
    (0, "\n"),
    (0, " \t\x0b\x0c\r \n# a\n#"),
    (0, "1 1"),
    (0, "2 x y z\n"),
];

const ORDER: &[(u32, &str)] = &[
    // the first bad statement decides, also after .exdc
    (4, ".model # m"),
    (4, ".latch d"),
    (4, ".latch"),
    (4, ".latch d # q"),
    (4, ".model\n.foo"),
    (5, ".foo\n.model"),
    (4, ".exdc\n.model"),
    (5, ".exdc\n.foo"),
    (4, ".inputs a a\n.latch a"),
    (5, ".names\n.foo"),
    // 7 to 10 by statement
    (7, ".model m\n.model m"),
    (7, ".model m\n.model n\n.names"),
    (8, ".end"),
    (8, ".end\n.model m"),
    (8, ".end\n.names"),
    (9, ".names\n.end"),
    (9, ".names # y\n.inputs a a"),
    (10, ".inputs a a\n.names"),
    (10, ".inputs a\n.latch a a"),
    (10, ".inputs a\n.names a a\n1 1"),
    (10, ".names a\n.names a"),
    (10, ".latch a q\n.latch a q"),
    (10, ".names y\n.inputs y"),
    (0, ".model m\n.end\n.end"),
    (0, ".inputs a\n.model m\n.end"),
    (0, ".model m\n.exdc\n.model m\n.inputs a a"),
    // all of them before 11
    (7, ".outputs q\n.model m\n.model m"),
    (8, ".outputs q\n.end"),
    (9, ".outputs q\n.names"),
    (10, ".outputs q\n.inputs a a"),
    // 11 in outputs, latches, covers with and without lines, and where the definition stands after .exdc
    (11, ".outputs a"),
    (11, ".latch d q"),
    (11, ".names d y"),
    (11, ".names d y\n1 1"),
    (11, ".outputs a\n.exdc\n.inputs a"),
    (11, ".outputs vdd"),
    (11, ".inputs ab\n.outputs a"),
    (11, ".inputs a\n.outputs ab"),
    // 11 before 12, 12 and 13 before 14
    (11, ".inputs a\n.names a y\n2 1\n.names q z\n1 1"),
    (11, ".inputs a\n.names a y\n2 1\n.outputs q"),
    (12, ".inputs a\n.names y y\n1 1\n.names a z\n2 1"),
    (13, ".inputs a\n.names y y\n1 1\n.names a z\n1 1\n0 0"),
    // cover by cover: 13 of an earlier one, 12 within one
    (13, ".inputs a\n.names a y\n1 1\n0 0\n.names a z\n2 1"),
    (12, ".inputs a\n.names a y\n2 1\n.names a z\n1 1\n0 0"),
    (12, ".inputs a\n.names a y\n1 1\n0 0\n2 1"),
    (12, ".inputs a\n.names a y\n1 1\n0 0\n1 2"),
];

// `.end` ends the model (document 02, CR 3).
const ENDED: &[(u32, &str)] = &[
    // what stands behind it defines, uses and builds nothing: none of 7 to 14
    (0, ".model m\n.end\n.model n"),
    (0, ".model m\n.end\n.names"),
    (0, ".model m\n.end\n.inputs a a"),
    (0, ".model m\n.inputs a\n.end\n.inputs a"),
    (0, ".model m\n.end\n.outputs a"),
    (0, ".model m\n.end\n.latch d q"),
    (0, ".model m\n.end\n.names y\n2"),
    (0, ".model m\n.end\n.names y\n1\n0"),
    (0, ".model m\n.end\n.names y y\n1 1"),
    (11, ".model m\n.outputs a\n.end\n.inputs a"),
    (11, ".model m\n.latch d q\n.end\n.inputs d"),
    (11, ".model m\n.names a y\n.end\n.inputs a"),
    (0, ".model m\n.inputs a\n.outputs a\n.end\n.inputs b\n.outputs b\n.names a b c\n11 1\n.latch b d"),
    (0, ".model m\n.inputs a\n.outputs y\n.names a y\n1 1\n.end\n.model n\n.inputs a b\n.outputs y\n.names a b y\n11 1\n.end"),
    // cube lines behind it join no cover
    (0, ".model m\n.names y\n.end\n1"),
    (0, ".model m\n.inputs a\n.outputs y\n.names a y\n1 1\n.end\n0 1"),
    (0, ".model m\n.inputs a\n.outputs y\n.names a y\n.end\n1 1"),
    (0, ".model m\n.inputs a\n.names a y\n1 1\n.end\n1 0"),
    (0, ".model m\n.inputs a\n.names a y\n1 1\n.end\nnotes, in words"),
    (12, ".model m\n.inputs a\n.names a y\n2 1\n.end\n1 1"),
    // it has to parse
    (4, ".model m\n.end\n.model"),
    (4, ".model m\n.end\n.latch d"),
    (5, ".model m\n.end\n.gate"),
    (5, ".model m\n.end\n.end_kiss"),
    (5, ".end\n.gate"),
    (4, ".end\n.model"),
    (4, ".model m\n.end\n.exdc\n.latch d"),
    // 8 where no `.model` comes before it, in the order of statements
    (8, ".end\n.end"),
    (8, ".end\n.exdc"),
    (8, ".end\n.model m\n.end"),
    (8, ".inputs a\n.end\n.inputs a"),
    (7, ".model m\n.model n\n.end"),
    (9, ".names\n.end\n.model m"),
    (10, ".inputs a a\n.end"),
    (8, ".outputs q\n.end\n.inputs q"),
    // the first of `.end` and `.exdc` stops
    (0, ".exdc\n.end"),
    (0, ".model m\n.exdc\n.end\n.inputs a a"),
    (0, ".model m\n.end\n.names\n.end"),
    (0, ".model m\n.end\n.exdc\n.inputs a a"),
    (0, ".model m\n.inputs a\n.end\n.inputs b\n.end\n.inputs c\n.end"),
    // words behind it and lines that it continues into are no statements
    (0, ".model m\n.end .inputs a\n.inputs b b"),
    (0, ".model m\n.end\\\n.inputs a\n.inputs b b"),
    (0, ".model m\n\\\n.end\n.inputs b b"),
    (0, ".model m\r\n.end\r\n.inputs b b\r\n"),
    (0, ".model m\n.end # notes\n# notes\n.inputs b b"),
    (10, ".model m\n# .end\n.inputs b b"),
    (10, ".model m\\\n.end\n.inputs b b"),
    (10, ".model .end\n.inputs b b"),
    (10, ".model m\n.inputs .end\n.inputs .end"),
];

// Start values of latches (document 02, CR 4): which token is one, by how many there are, and what it may be.
const STARTS: &[(u32, &str)] = &[
    // two tokens, and three
    (0, ".latch q q"),
    (0, ".latch q q 0"),
    (0, ".latch q q 1"),
    (0, ".latch q q 2"),
    (0, ".latch q q 3"),
    (34, ".latch q q 4"),
    (34, ".latch q q 9"),
    (34, ".latch q q /"),
    (34, ".latch q q re"),
    (34, ".latch q q fe"),
    (34, ".latch q q as"),
    (34, ".latch q q NIL"),
    (34, ".latch q q q"),
    (34, ".latch q q -"),
    (34, ".latch q q x"),
    (34, ".latch q q 00"),
    (34, ".latch q q 01"),
    (34, ".latch q q 10"),
    (34, ".latch q q 11"),
    (34, ".latch q q 21"),
    (34, ".latch q q 12"),
    (34, ".latch q q +1"),
    (34, ".latch q q -1"),
    (34, ".latch q q 1.0"),
    (34, ".latch q q 0x1"),
    (34, ".latch q q \x00"),
    (34, ".latch q q 1\x00"),
    (34, ".latch q q \x01"),
    (34, ".latch q q \x1f"),
    (34, ".latch q q ."),
    (34, ".latch q q .end"),
    (34, ".latch q q \""),
    (34, ".latch q q =1"),
    (34, ".latch q q init=1"),
    // four: none is looked at
    (0, ".latch q q re c"),
    (0, ".latch q q re 0"),
    (0, ".latch q q re 1"),
    (0, ".latch q q 1 1"),
    (0, ".latch q q 4 4"),
    (0, ".latch q q x x"),
    (0, ".latch q q 1 0"),
    (0, ".latch q q 0 1"),
    // five: the fifth
    (0, ".latch q q re c 0"),
    (0, ".latch q q re c 1"),
    (0, ".latch q q re c 2"),
    (0, ".latch q q re c 3"),
    (34, ".latch q q re c 4"),
    (34, ".latch q q re c x"),
    (34, ".latch q q re c -"),
    (34, ".latch q q re c 01"),
    (34, ".latch q q re c 10"),
    (34, ".latch q q re c re"),
    (34, ".latch q q re c NIL"),
    (0, ".latch q q re NIL 1"),
    (0, ".latch q q x c 1"),
    (0, ".latch q q 4 4 1"),
    (0, ".latch q q 1 0 0"),
    (0, ".latch q q 0 1 0"),
    (0, ".latch q q 0 0 1"),
    (34, ".latch q q 1 1 4"),
    (34, ".latch q q 0 0 x"),
    // six and more: the fifth
    (0, ".latch q q re c 0 1"),
    (0, ".latch q q re c 1 0"),
    (0, ".latch q q re c 1 x"),
    (0, ".latch q q 4 4 1 4"),
    (0, ".latch q q 1 1 0 1"),
    (34, ".latch q q re c x 1"),
    (34, ".latch q q 1 1 4 1"),
    (0, ".latch q q re c 1 x x"),
    (0, ".latch q q re c 3 1 1 1"),
    (0, ".latch q q 1 1 2 1 1 1 1 1 1 1"),
    (34, ".latch q q re c 01 1 1"),
    (34, ".latch q q 0 0 00 0 0 0 0 0"),
    // ends of lines, comments, backslashes and blanks around it
    (0, ".latch q q 1\n"),
    (0, ".latch q q 1\r\n"),
    (0, ".latch q q 1\r"),
    (0, ".latch q q 1 "),
    (0, ".latch q q 1 \t\r\x0b\x0c"),
    (0, ".latch q q 1#"),
    (0, ".latch q q 1# x"),
    (0, ".latch q q 1 # re c 0"),
    (0, ".latch q q #1"),
    (0, ".latch q q # x"),
    (34, ".latch q q re # c 1"),
    (0, ".latch q q re c#1"),
    (0, ".latch q q 1\\"),
    (0, ".latch q q 1\\\n"),
    (0, ".latch q q 1 \\\n"),
    (0, ".latch q q \\\n1"),
    (0, ".latch q q\\\n1"),
    (0, ".latch q q \\\r\n1\r\n"),
    (0, ".latch\\\nq\\\nq\\\nre\\\nc\\\n1"),
    (0, ".latch q q re \\\nc \\\n1 \\\n0"),
    (0, ".latch q q 1 \\\n1"),
    (34, ".latch q q 1 \\\n1 \\\n4"),
    (34, ".latch q q \\\nx"),
    (34, ".latch q \\\nq\\\n 01"),
    (34, ".latch q q 0\\ "),
    (34, ".latch q q 0\\\\"),
    (34, ".latch q q 1\\#"),
    (34, ".latch q q 0\\\r"),
    (34, ".latch q q \\ "),
    (0, ".latch q q \\ 1"),
    (0, ".latch q q \\ 1 1"),
    (0, ".latch q q\n1"),
    (0, ".latch q q\n\n4"),
    (0, ".latch q q 1\n4"),
];

// Where 34 stands in the order of refusals.
const STARTS_ORDER: &[(u32, &str)] = &[
    // a latch with fewer than two names is 4
    (4, ".latch 4"),
    (4, ".latch x # q 4"),
    (4, ".latch"),
    // the first bad statement of 4, 5 and 34
    (34, ".latch q q x\n.latch d"),
    (4, ".latch d\n.latch q q x"),
    (34, ".latch q q x\n.model"),
    (4, ".model\n.latch q q x"),
    (34, ".latch q q x\n.gate"),
    (5, ".gate\n.latch q q x"),
    (34, ".latch q q x\n.gate\n.model"),
    (5, ".gate\n.latch q q x\n.model"),
    (4, ".model\n.latch q q x\n.gate"),
    (34, ".latch q q re c x\n.flop D=q Q=r init=4"),
    (5, ".flop D=q Q=r init=4\n.latch q q re c x"),
    (34, ".latch q q 1\n.latch r r x\n.latch d\n.gate"),
    (34, ".latch q q\n.latch r r re c 1\n.latch s s 5"),
    // before 7 to 14
    (34, ".model m\n.model n\n.latch q q x"),
    (34, ".end\n.latch q q x"),
    (34, ".names\n.latch q q x"),
    (34, ".inputs q\n.latch q q x"),
    (34, ".latch q q x\n.latch q q 0"),
    (34, ".latch d q x"),
    (34, ".outputs y\n.latch q q x"),
    (34, ".names y\n2\n.latch q q x"),
    (34, ".names y\n1\n0\n.latch q q x"),
    (34, ".names y y\n1 1\n.latch q q x"),
    // a good value beside them
    (7, ".model m\n.model n\n.latch q q 1"),
    (8, ".end\n.latch q q 1"),
    (9, ".names\n.latch q q 1"),
    (10, ".inputs q\n.latch q q 1"),
    (11, ".latch d q 1"),
    (11, ".latch d q re c 1"),
    (12, ".names y\n2\n.latch q q 1"),
    (14, ".names y y\n1 1\n.latch q q 1"),
    // behind `.exdc` and `.end`
    (34, ".exdc\n.latch q q x"),
    (34, ".exdc\n.latch q q re c 4"),
    (34, ".model m\n.end\n.latch q q x"),
    (34, ".model m\n.end\n.latch q q re c 4"),
    (34, ".model m\n.end\n.exdc\n.latch q q x"),
    (34, ".exdc\n.end\n.latch q q x"),
    (34, ".model m\n.end\n.latch q q x\n.gate"),
    (5, ".model m\n.end\n.gate\n.latch q q x"),
    (34, ".exdc\n.latch q q x\n.latch d"),
    (4, ".exdc\n.latch d\n.latch q q x"),
    (34, ".model m\n.latch q q 1\n.end\n.latch r r x"),
    (34, ".latch q q 1\n.exdc\n.latch r r x"),
    (0, ".model m\n.end\n.latch q q 1"),
    (0, ".exdc\n.latch d q re c 3"),
    (0, ".model m\n.latch q q\n.end\n.latch r r 1"),
    (0, ".latch q q\n.exdc\n.latch r r 1"),
    // not a latch
    (0, ".inputs q x\n.outputs q x"),
    (0, ".inputs a\n.names a y\n1 1\n.latch y q 1\n2 2 2 2"),
    (0, ".model m .latch q q x\n.end .latch q q x"),
    (0, "# .latch q q x"),
    (5, ".latches q q x"),
];

// Several latches: which flip-flop starts at one.
const STARTED: &[(u32, &str)] = &[
    (0, ".latch q q 1\n.latch r r 0"),
    (0, ".latch q q 0\n.latch r r 1"),
    (0, ".latch q r 1\n.latch r q 2"),
    (0, ".latch q r 3\n.latch r q 1"),
    (0, ".latch a a 0\n.latch b b 1\n.latch c c 2\n.latch d d 3\n.latch e e\n.latch f f re k\n.latch g g re k 1\n.latch h h re k 0 1"),
    (0, ".latch a a 1\n.latch b b 1\n.latch c c 1\n.latch d d 0"),
    (0, ".latch a b 1\n.latch b c\n.latch c a re k 1\n.outputs c b a"),
    // among covers, whose gates the sort puts behind the flip-flops
    (0, ".inputs a\n.names a x\n1 1\n.latch x q 1\n.outputs q"),
    (0, ".inputs a\n.names a x\n1 1\n.latch x q 1\n.names q y\n0 1\n.latch y r 0\n.outputs q r"),
    (0, ".inputs a\n.names a x\n1 1\n.latch x q 0\n.names q y\n0 1\n.latch y r 1\n.outputs q r"),
    (0, ".inputs a\n.names y x\n1 1\n.names a y\n0 1\n.latch x q\n.latch y r 1\n.names q r w\n11 1\n.latch w s re k 1\n.outputs s r q"),
    (0, ".names q r y\n11 1\n00 1\n.latch y q 1\n.names q z\n0 0\n.latch z r 3\n.latch r s 1\n.outputs y"),
    (0, ".inputs a b\n.names a b x\n11 0\n00 0\n.latch x q re k 1\n.names q b y\n10 0\n01 0\n.latch y r re k 2\n.outputs q r"),
    (0, ".outputs r q\n.latch d r 1\n.names q d\n0 1\n.latch r q\n.names d e\n1 1\n.latch e p re k 1\n.inputs i"),
    // before `.end` and before `.exdc`
    (0, ".model m\n.latch q q 1\n.end\n.latch q q 0\n.latch r r 1"),
    (0, ".model m\n.names y\n.latch y q 1\n.end\n.names q\n.latch q y 0"),
    (0, ".latch q q 1\n.names y\n.latch y r 0\n.exdc\n.latch s s 1"),
];

const COVERS: &[(u32, &str)] = &[
    // directly after: empty and comment lines do not interrupt, statements do
    (0, ".inputs a\n.outputs y\n.names a y\n\n# c\n1 1\n \n0 1"),
    (0, ".model m\n.inputs a\n.names a y\n.end\n2 1"),
    (0, ".inputs a\n.names a y\n.inputs\n2 1"),
    (0, ".inputs a\n.names a y\n.outputs\n2 1"),
    (0, ".inputs a\n.names a y\n.exdc\n2 1"),
    (0, ".inputs a\n2 1\n.names a y\n1 1\n.latch a q\n2 1"),
    // tokens and columns
    (12, ".inputs a\n.names a y\n1"),
    (12, ".inputs a\n.names a y\n11"),
    (12, ".inputs a\n.names a y\n11 1"),
    (12, ".inputs a b\n.names a b y\n1 1"),
    (12, ".inputs a\n.names a y\n1 1 1"),
    (12, ".inputs a\n.names a y\n1 11"),
    (12, ".inputs a\n.names a y\n1 -"),
    (12, ".inputs a\n.names a y\nx 1"),
    (12, ".names y\n- 1"),
    (12, ".names y\n-"),
    (12, ".names y\n1 1"),
    (12, ".names y\n01"),
    (0, ".inputs a\n.outputs y\n.names a y\n1\\\n1"),
    (13, ".names y\n1\n0"),
    // one line: And, Nand, Buf, constants
    (0, ".outputs y\n.names y\n0"),
    (0, ".inputs a\n.outputs y\n.names a y\n- 0"),
    (0, ".inputs a\n.outputs y\n.names a y\n- 1"),
    (0, ".inputs a\n.outputs y\n.names a y\n0 0"),
    (0, ".inputs a\n.outputs y\n.names a y\n0 1"),
    (0, ".inputs a b c\n.outputs y\n.names a b c y\n-10 0"),
    (0, ".inputs a b c\n.outputs y\n.names a b c y\n1-- 1"),
    (0, ".inputs a\n.outputs y\n.names a a y\n10 1"),
    (0, ".inputs a b\n.outputs y\n.names a b y\n"),
    // two lines or more: Or, and And where the outputs are 0
    (0, ".inputs a b\n.outputs y\n.names a b y\n11 1\n00 1\n"),
    (0, ".inputs a b\n.outputs y\n.names a b y\n-- 0\n1- 0\n"),
    (0, ".inputs a b\n.outputs y z\n.names a b y\n10 0\n01 0\n.names a y z\n1- 1\n-0 1\n"),
    (0, ".inputs a\n.outputs z y\n.names y x z\n11 0\n00 0\n.names a y\n1 0\n0 0\n.names a x\n1 0\n"),
    (0, ".outputs y\n.names y\n1\n1\n1"),
    (0, ".outputs y\n.names y\n0\n0"),
    // loops of the gates as built
    (0, ".names y y\n- 1"),
    (14, ".names y y\n1 1"),
    (14, ".names y y\n0 0"),
    (0, ".names y y\n"),
    (14, ".inputs i\n.outputs i\n.names b a\n1 1\n.names a b\n0 1"),
    (14, ".names b a\n1 1\n- 1\n.names a b\n1 1"),
    (0, ".names q d\n1 1\n.latch d q"),
    (0, ".latch q q\n.outputs q"),
    (0, ".latch p q\n.latch q p\n.outputs p q"),
    // a latch's second name is its output; type and control are not looked at
    (0, ".inputs a\n.outputs q\n.latch a q re c 1"),
    (0, ".inputs a\n.outputs q\n.latch a q"),
    (11, ".inputs q\n.latch a b q q"),
    (11, ".inputs c\n.latch a b re c 1"),
    // names of one tree of the index, names of one hash, and names that begin alike
    (0, ".inputs aa xh a aab aaa\n.outputs xh aa aaa a aab"),
    (11, ".inputs aa\n.outputs xh"),
    (0, ".inputs PPPPPPPPPPPP EMNSIHPSVDHK CUPKXKP^PXTN\n.outputs CUPKXKP^PXTN EMNSIHPSVDHK PPPPPPPPPPPP"),
    (11, ".inputs PPPPPPPPPPPP EMNSIHPSVDHK\n.outputs CUPKXKP^PXTN"),
];

const SORT: &[(u32, &str)] = &[
    // in order already, and moved all the same
    (0, ".inputs a b\n.outputs x y z\n.names a b x\n11 1\n.names a b y\n10 1\n.names y x z\n11 1"),
    // the last of the stack first
    (0, ".inputs a b\n.outputs x y z\n.names y z x\n11 1\n.names a b y\n11 1\n.names b a z\n11 1"),
    (0, ".inputs a\n.outputs x y z\n.names a x\n1 1\n.names a y\n1 1\n.names a z\n1 1"),
    // flip-flops come first, in old order, and their data is no use
    (0, ".inputs a b\n.outputs x p q\n.names a b x\n11 1\n.latch a p\n.latch b q"),
    (0, ".inputs a b\n.outputs x q y\n.names a b x\n11 1\n.latch x q\n.names b a y\n11 1"),
    // a repeat counts twice, also x with !x
    (0, ".inputs a b\n.outputs x y z\n.names a b x\n11 1\n.names a b y\n10 1\n.names x y x z\n111 1"),
    (0, ".inputs a b\n.outputs x y z\n.names a b x\n11 1\n.names a b y\n10 1\n.names x y x z\n110 1"),
    // a popped flip-flop lowers nothing
    (0, ".inputs a b\n.outputs q x y z\n.latch x q\n.names a b x\n11 1\n.names x a y\n11 1\n.names y q x z\n111 1"),
    // lines of covers stand behind all covers, cover by cover
    (0, ".inputs a b\n.outputs y x q\n.names a x y\n11 1\n00 1\n.names a b x\n1- 1\n-1 1\n.latch y q"),
];

const HIGH: &[(u32, &[u8])] = &[
    (3, b"\x80"),
    (3, b"#\xff"),
    (3, b".foo\x80"),
    (3, b".model\n\xc3\xa9"),
    (3, b".exdc\n# \xe2\x80\x83"),
    (3, b".latch q q \xb1"),
    (3, b".latch q q x\n\x80"),
    (3, b"\xff\n.latch q q x"),
    (0, b"\x7f"),
];

pub fn by_hand() -> Vec<(u32, Vec<u8>)> {
    let parts = [CASES, LINES, ORDER, STARTS, STARTS_ORDER, STARTED, COVERS, SORT, ENDED].concat();
    let mut all: Vec<(u32, Vec<u8>)> = parts.iter().map(|(k, t)| (*k, t.as_bytes().to_vec())).collect();
    all.extend(HIGH.iter().map(|(k, t)| (*k, t.to_vec())));
    all.extend(sizes());
    all
}

// What short sequences are made of: statements; ends of lines behind names; what stands behind a latch's names; lines of a cover of two names.
const STATEMENTS: &[&str] = &[".names a\n", ".inputs a\n", ".outputs a\n", "1\n", "1 1\n", ".end\n", ".model m\n", ".latch a b 1\n"];
const ENDS: &[&str] = &["\\", "\n", "\r", " ", "#", "b", ".end"];
const BEHIND: &[&str] = &[" 0", " 1", " 3", " x", "\\\n", "\n1"];
const ROWS: &[&str] = &["11 1\n", "0- 1\n", "-- 0\n", "10 0\n", "1 1\n", "2- 1\n", ".names a b\n"];

// Every sequence of up to so many fragments behind a text, the shorter ones first.
pub fn every(before: &'static str, fragments: &'static [&'static str], depth: u32) -> impl Iterator<Item = Vec<u8>> {
    let n = fragments.len();
    let sequence = move |length: u32, k: usize| {
        let parts = (0..length).rev().flat_map(move |place| fragments[k / n.pow(place) % n].bytes());
        before.bytes().chain(parts).collect()
    };
    (0..=depth).flat_map(move |length| (0..n.pow(length)).map(move |k| sequence(length, k)))
}

pub fn sequences(depth: u32) -> impl Iterator<Item = Vec<u8>> {
    every("", STATEMENTS, depth)
        .chain(every(".model m\n.outputs a b\n.inputs a", ENDS, depth))
        .chain(every(".latch a a", BEHIND, depth))
        .chain(every(".inputs a c\n.outputs y\n.names a c y\n", ROWS, depth))
}
