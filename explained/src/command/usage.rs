//! The help.

pub const HELP: &str = "\
tools/satuphir play LIST                 the lines, one for each frame
tools/satuphir explain LIST              each frame with its line, in words
tools/satuphir picture LIST OUT.svg      who sent what to whom, as a picture
tools/satuphir page LIST OUT.html        picture, words and state in one page, to click through
tools/satuphir handout LIST OUT.html     the frames in words to hand out, with a blank for each line
tools/satuphir state N LIST              all that stands after frame N, with what it changed
tools/satuphir next [N] LIST             what would be accepted after the list, or after frame N
tools/satuphir survivors LIST            how many crash sets the buddies of the list's job survive
tools/satuphir before LIST [A B]...      what came before what: which processing before which
tools/satuphir variants LIST N           N lists like it, with other values injected
tools/satuphir encode LIST               words to hexadecimal digits
tools/satuphir decode LIST               hexadecimal digits to words

LIST is a file, or - for standard input, in words or in hexadecimal digits (docs/RULES.md has both);
each line decides by itself. A line that is neither is a mistake, or 01 in a list of digits alone.
OUT may be - for standard output.

The line of an accepted frame ends with a letter for the rule used: explain, page and state say what
it means, and docs/RULES.md has all ten. Where frames do not stand on the lines of their numbers, for
there are words, blank lines or comments, a frame is told with its line in the list.

survivors looks at the first frame alone, the job. For each f from 1 to the number of machines it
prints three numbers: f, how many sets of f machines there are, and in how many of these no machine
stands together with its buddy, so that each one's copy is left if all of the set crash at once. A
first frame that is no acceptable job gets its line alone. docs/SURVIVORS.md compares layouts.

before looks at the processings, the accepted works. One is called by its chare and TN: 3:2 is chare
3's work of TN 2. For each pair A B it says whether A came before B: on the same chare with a lower
TN, or through the processing that sent B's message, or through a chain of such steps; unknown if the
list does not do one of them. Without a pair it prints all of them, each with the ones that arrows
come from and all that came before it. A row of more than 512 is bad. docs/BEFORE.md has an example.

variants changes injected values alone: each becomes another one with as many decimal digits. It is
checked that every line stays, but for the states that shows give. The lists are in words, without
comments, if LIST is, else in digits. They are printed, if N is above 1 each under a line
\"# variant 1 of N\", or written to files with --out. A list that injects nothing, or too little for N
variants, has none.

--quick               play with the second implementation, which builds in seconds: these are not
                      the proved engine's lines, and every such run says so
--table               with play: number, words and line of each frame
--json                with play, state and next: the same for programs
--picture OUT.svg     with explain: the picture too
--pages               with picture: one file for each sheet of A4, OUT-1.svg, OUT-2.svg, ..., and
                      OUT-print.html with all of them, to print
--seed S              with variants: the same seed gives the same lists; 1 if it is not said
--out OUT             with variants: for OUT.txt the files OUT-1.txt, OUT-2.txt, ...; in the folder
                      OUT, if it is one, files with the list's name and a number
--key                 with handout: the lines where the blanks are, and each chare's end
--explained           with handout: the key with the words for each frame, for tutors
--help, --version     this; the version

The first call that needs the proved engine proves and builds it, which takes minutes.
Status: 0 done; 1 the engine and the second implementation differ, or a variant's lines from the
list's; 2 bad usage, a list that cannot be read or has mistakes in its words, a result that cannot
be written.
";
