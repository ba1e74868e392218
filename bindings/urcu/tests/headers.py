"""The headers beside liburcu's own: each name that one of those brings in, documented or not, the
header of the same name here brings in too: macros, calls, types, their members, and constants, and
of the C library the headers. The names are found in the text of liburcu's headers; the preprocessor
tells which are macros, and the compiler which of the others a program may use behind the header.

Left out are the guards of headers (the macro that a file asks for first, and defines with no
value or 1), and what EXCEPTIONS lists, name by name, under the reason. One of these that is brought
in after all is told too."""
import concurrent.futures
import glob
import os
import re
import subprocess

INCLUDE = os.path.join(os.path.dirname(os.path.dirname(os.path.realpath(__file__))), "include")
FLAGS = ([], ["-D_LGPL_SOURCE"])
EXCEPTIONS = {
    # What a thread has, and what grace periods count by: the layer has both in another form, and
    # hidden. No program can use them in a right way but by the calls.
    "the state of readers": """
        rcu_gp rcu_gp_bp rcu_gp_mb rcu_gp_memb rcu_gp_qsbr rcu_gp_sig rcu_reader rcu_reader_bp
        rcu_reader_mb rcu_reader_memb rcu_reader_qsbr rcu_reader_sig urcu_bp_gp urcu_mb_gp
        urcu_memb_gp urcu_qsbr_gp urcu_signal_gp urcu_bp_reader urcu_mb_reader urcu_memb_reader
        urcu_qsbr_reader urcu_signal_reader URCU_GP_COUNT URCU_GP_CTR_NEST_MASK URCU_GP_CTR_PHASE
        URCU_BP_GP_COUNT URCU_BP_GP_CTR_NEST_MASK URCU_BP_GP_CTR_PHASE URCU_QSBR_GP_CTR
        URCU_QSBR_GP_ONLINE URCU_READER_ACTIVE_CURRENT URCU_READER_ACTIVE_OLD URCU_READER_INACTIVE
        URCU_BP_READER_ACTIVE_CURRENT URCU_BP_READER_ACTIVE_OLD URCU_BP_READER_INACTIVE
        urcu_state urcu_bp_state urcu_gp urcu_gp.ctr urcu_gp.futex urcu_bp_gp.ctr urcu_reader
        urcu_reader.ctr urcu_reader.need_mb urcu_reader.node urcu_reader.tid urcu_bp_reader.alloc
        urcu_bp_reader.ctr urcu_bp_reader.node urcu_bp_reader.tid urcu_qsbr_reader.ctr
        urcu_qsbr_reader.node urcu_qsbr_reader.tid urcu_qsbr_reader.waiting""",
    # Steps of the calls that liburcu inlines, by that state. The calls themselves are here.
    "parts of inlined calls": """
        _urcu_bp_read_lock_update _urcu_mb_read_lock_update _urcu_memb_read_lock_update
        _urcu_signal_read_lock_update _urcu_mb_read_unlock_update_and_wakeup
        _urcu_memb_read_unlock_update_and_wakeup _urcu_signal_read_unlock_update_and_wakeup
        _urcu_qsbr_quiescent_state_update_and_wakeup urcu_bp_reader_state urcu_common_reader_state
        urcu_common_wake_up_gp urcu_qsbr_reader_state urcu_qsbr_wake_up_gp urcu_bp_smp_mb_slave
        urcu_memb_smp_mb_slave urcu_bp_has_sys_membarrier urcu_memb_has_sys_membarrier""",
    # They name calls that no header of liburcu's declares, for a build of its tests (DEBUG_YIELD).
    "short names of nothing": """
        rcu_rand_yield rcu_rand_yield_bp rcu_yield_active rcu_yield_active_bp""",
    # Instructions of x86, behind uatomic_add and so on, which are here.
    "parts of uatomic": """
        UATOMIC_COMPAT __hp __hp_1 __hp_2 __hp_4 __hp_8 __uatomic_add __uatomic_add_return
        __uatomic_and __uatomic_cmpxchg __uatomic_dec __uatomic_exchange __uatomic_inc __uatomic_or
        _uatomic_add _uatomic_add_return _uatomic_and _uatomic_cmpxchg _uatomic_dec _uatomic_inc
        _uatomic_link_error _uatomic_or _uatomic_set _uatomic_xchg""",
    # By which 0.15 counts the arguments of uatomic_add and so on, and looks at their size.
    "parts of uatomic in 0.15": """
        _uatomic_default_mo _uatomic_default_mo2 _uatomic_select_arg1 _uatomic_select_arg2
        _uatomic_has_atomic_type _uatomic_static_assert_atomic _uatomic_str _uatomic_xstr
        _UATOMIC_HAS_ATOMIC_BYTE_FLAG _UATOMIC_HAS_ATOMIC_SHORT_FLAG _UATOMIC_HAS_ATOMIC_INT_FLAG
        _UATOMIC_HAS_ATOMIC_LLONG_FLAG _UATOMIC_HAS_ATOMIC_MASK _cmm_static_assert__atomic_lf
        _cmm_compat_c11_smp_mb__after_mo _cmm_compat_c11_smp_mb__before_mo
        _cmm_compat_c11_smp_mb__after_uatomic_load_mo _cmm_compat_c11_smp_mb__after_uatomic_store_mo
        _cmm_compat_c11_smp_mb__before_uatomic_load_mo
        _cmm_compat_c11_smp_mb__before_uatomic_store_mo""",
    # Set by the header for itself, where the compiler is old enough.
    "how rcu_dereference is made": "__URCU_DEREFERENCE_USE_ATOMIC_CONSUME",
}
SIGN = """#if defined(caa_container_of_check_null) != defined(cds_lfht_entry)
#error caa_container_of_check_null is there without cds_lfht_entry, or the other way round
#endif
"""
LEFT_OUT = {name for names in EXCEPTIONS.values() for name in names.split()}
# Of the C library, those that a program names.
SYSTEM = re.compile(r'^# \d+ "/usr/include/(?:\w+-linux-gnu/)?(?!urcu)((?:sys/)?\w+\.h)"',
                    re.MULTILINE)
OF_LIBURCU = re.compile(r"/(?:urcu/.*|urcu[\w-]*\.h)$")
WORD = re.compile(r"\b[A-Za-z_]\w*")


def compiler(header, more, *flags):
    return subprocess.run(["cc", "-w", "-std=gnu11", "-xc", *flags, "-"],
                          input=f"#include <{header}>\n{more}", stdout=subprocess.PIPE, check=False,
                          stderr=subprocess.PIPE, encoding="utf-8")


def read(header, *flags):
    """Its text, with what it includes, or an empty one where there is no such header."""
    return compiler(header, "", "-E", *flags).stdout


def macros(header, *flags):
    return set(re.findall(r"^#define (\w+)", read(header, "-dM", *flags), re.MULTILINE))


def text_of_liburcu(text):
    """The lines that come from liburcu's headers, without guards."""
    lines, inside = [], False
    for line in text.splitlines():
        found = re.match(r'# \d+ "([^"]+)"(.*)', line)
        if found:
            inside = bool(OF_LIBURCU.search(found[1]))
            if inside and not found[2].startswith(" 2"):
                lines.append("")
        elif inside:
            lines.append(line)
    return "\n".join(lines)


def guards(header, *flags):
    """The macros that a header of liburcu's asks for first, among all that it brings in."""
    every = set()
    for path in set(re.findall(r'^# \d+ "(/[^"]+)"', read(header, *flags), re.MULTILINE)):
        if OF_LIBURCU.search(path):
            with open(path, encoding="utf-8") as file:
                text = file.read()
            every |= set(re.findall(r"^#ifndef (\w+)\n#define \1(?:\s+1)?$", text,
                                    re.MULTILINE)[:1])
    return every


def bodies(text):
    """Each structure's kind, tag and members' text."""
    for found in re.finditer(r"\b(struct|union)\s+(\w+)\s*\{", text):
        depth, at = 1, found.end()
        while depth and at < len(text):
            depth += {"{": 1, "}": -1}.get(text[at], 0)
            at += 1
        yield found[1], found[2], text[found.end():at]


def declarations(text):
    """Of each word that may be a name: a line that the compiler takes where it is one."""
    lines = {it: f"typedef __typeof__({it}) *type_of_{it};" for it in set(WORD.findall(text))}
    for kind, tag in set(re.findall(r"\b(struct|union|enum)\s+(\w+)", text)):
        lines[tag] = f"enum {{ size_of_{tag} = sizeof({kind} {tag}) }};"
    for kind, tag, body in bodies(text):
        for it in set(WORD.findall(body)):
            lines[f"{tag}.{it}"] = f"typedef __typeof__((({kind} {tag} *)0)->{it}) *of_{tag}_{it};"
    return lines


def accepted(header, lines, *flags):
    """The names whose lines the compiler takes behind the header."""
    said = compiler(header, "\n".join(lines.values()) + "\n", "-fsyntax-only", "-fmax-errors=0",
                    *flags).stderr
    wrong = {int(it) for it in re.findall(r"^<stdin>:(\d+):\d+: error", said, re.MULTILINE)}
    return {name for at, name in enumerate(lines, 2) if at not in wrong}


def compared(header, flags, theirs):
    """What liburcu's header brings in, which is found by the flags `theirs`, and this does not; and
    which exceptions it brings in. None where liburcu has no such header."""
    whole = read(header, "-dD", *flags, *theirs)
    if not whole:
        return None
    text = text_of_liburcu(whole)
    defined = set(re.findall(r"^#define (\w+)", text, re.MULTILINE))
    defined = (defined & macros(header, *flags, *theirs)) - guards(header, *flags, *theirs)
    lines = declarations(re.sub(r"^#.*$", "", text, flags=re.MULTILINE))
    names = accepted(header, lines, *flags, *theirs)
    here = (*flags, f"-I{INCLUDE}", *theirs)
    # A macro there may be a call here, and the other way round.
    asked = {it: lines.get(it, f"typedef __typeof__({it}) *type_of_{it};")
             for it in names | defined}
    brought = accepted(header, asked, *here) | macros(header, *here)
    system = set(SYSTEM.findall(whole)) - set(SYSTEM.findall(read(header, *here)))
    return sorted(system | (set(asked) - brought - LEFT_OUT)), sorted(brought & LEFT_OUT)


def signs(theirs):
    """What is wrong with the word that programs take as the sign that liburcu-cds has another one,
    and define both without it (BIND)."""
    return compiler("urcu/compiler.h", f"#include <urcu/rculfhash.h>\n{SIGN}", "-fsyntax-only",
                    f"-I{INCLUDE}", *theirs).stderr.splitlines()


def outcomes(theirs):
    """For each header, and each way: what, and what is missing."""
    yield "liburcu-cds", signs(theirs)
    headers = sorted(os.path.relpath(it, INCLUDE)
                     for it in glob.glob(f"{INCLUDE}/**/*.h", recursive=True))
    with concurrent.futures.ThreadPoolExecutor(os.cpu_count()) as pool:
        started = [(f"{it} {' '.join(flags)}", pool.submit(compared, it, flags, theirs))
                   for it in headers for flags in FLAGS]
        for what, it in started:
            if it.result():
                missing, needless = it.result()
                yield what, missing + [f"(no exception: {name})" for name in needless]
