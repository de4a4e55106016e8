"""What `--help` and `--version` show."""

VERSION = "vvmm 0.4.0\n"
HELP = """\
vvmm solo IMAGE STEPS          runs the file IMAGE as one guest for STEPS steps, 1 to 100000;
                               the guest's console is the file line00.out, its dump line01.out
vvmm trace IMAGE STEPS         runs as solo does, and shows a line for each step
vvmm run CONFIG SCRIPT ROUNDS  runs the guests of the configuration CONFIG for ROUNDS rounds, 1 to
                               1000000, with what the file SCRIPT types at terminals; line k is the
                               file linekk.out, drive k the file drivekk.vol
vvmm save CONFIG SCRIPT ROUNDS makes the rounds of run, and shows what the system is after them, as a
                               snapshot; drives stay as they are
vvmm resume SNAP SCRIPT ROUNDS goes on from the snapshot SNAP for ROUNDS rounds more, and ends as run does
vvmm extend SNAP SCRIPT ROUNDS goes on from the snapshot SNAP likewise, and ends as save does
vvmm live CONFIG ROUNDS        runs as run does, for at most ROUNDS rounds, with what is typed on standard
                               input while it runs: a line of a script without its round; an empty
                               line ends a round, and the end of the input the run
vvmm load NUMBER               runs the workload that is drawn from NUMBER, 0 to 4294967295: eight guests
                               in 20 rounds, on volumes of its own
vvmm check CONFIG              reads a configuration, and shows how many objects it has
vvmm migrate CONFIG            shows a configuration in version 2
vvmm audit CONFIG RECORD       checks what an audit line was shown, the file RECORD, against CONFIG
vvmm flow CONFIG               shows which object's inputs may reach which object
vvmm draw CONFIG               shows a picture of a configuration, in SVG
vvmm asm SOURCE                assembles the file SOURCE, and shows the image's bytes
vvmm list SOURCE               shows each line of SOURCE with its address and bytes, and the names
vvmm dis IMAGE                 disassembles the file IMAGE, and shows the text
vvmm --help                    prints this
vvmm --version                 prints the version
"""
