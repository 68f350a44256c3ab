"""What the kinds of alarms and the refusals mean, and what to do at a refusal (docs/STATES.md, docs/REPORT.md)."""

KINDS = {
    "SV#1": "chSysDisable in a critical section or in a handler",
    "SV#2": "chSysSuspend in a critical section or in a handler",
    "SV#3": "chSysEnable in a critical section or in a handler",
    "SV#4": "a call that locks, in a critical section or in a handler",
    "SV#5": "chSysUnlock outside a critical section, or in a handler",
    "SV#6": "chSysLockFromISR outside a handler, or inside its critical section",
    "SV#7": "chSysUnlockFromISR outside a handler's critical section",
    "SV#8": "a handler's prologue in a critical section",
    "SV#9": "a handler's epilogue without its prologue, or in a critical section",
    "SV#10": "an I-class call outside a critical section",
    "SV#11": "an S-class call outside a critical section of a thread",
    "ORDER": "an unlock while a reschedule is due: chSchRescheduleS is missing on the way",
    "P#1": "a prologue in a thread that isn't locked, or in a handler that is open already",
    "P#2": "in a handler, a call before the prologue or after the epilogue, or chSysInit anywhere",
    "P#3": "a handler returns without its epilogue",
    "P#4": "in init, suspended or disabled, a call that isn't allowed there; or a second chSysInit",
    "P#5": "a kernel call in a fast handler, other than chSysHalt",
    "P#6": "a status pair inside an open pair, or a function that has a status variable called inside one",
    "P#7": "chSysRestoreStatusX without an open pair",
    "P#8": "an unlock inside an open pair, or a function left with its pair open",
}

# each refusal's number, its words in the report, and what to do at it
REFUSALS = {
    1: ("bad byte", "a byte past ASCII, or a # that begins no line: is the file preprocessed?"),
    2: ("unclosed comment or literal", "close it before the end of the line, or of the file"),
    3: ("literal too wide or malformed", "a binary constant as 0b101, a wide character, or a number past 64 bits?"),
    4: ("floating literal", "leave floating point to a function without a body, and name that in rtcheck.toml"),
    5: (
        "reserved word outside the subset",
        "floating types, unions and assembly: hide them behind a macro or in a function without a body",
    ),
    6: ("bad line marker", "line markers are as gcc -E writes them: # 12 \"file.c\""),
    7: (
        "syntax",
        "no C of the subset goes on here: a type that no header declares, a macro that isn't defined, a semicolon too "
        "many at file scope, a bit-field, a compound literal?",
    ),
    8: ("undeclared name", "what declares it: a driver that halconf.h switches off, a header or macro of one's own?"),
    9: ("defined twice", "two sources of the folder define it: is one of another build, or from an earlier run?"),
    10: ("types differ", "declare it everywhere as it is defined"),
    11: ("no constant in range", "a size, a case or an initialiser of a static object has to be a constant"),
    12: (
        "kernel name defined",
        "names that begin with ch and a capital letter, or with CH_IRQ_, are the kernel's: rename it",
    ),
    13: (
        "kernel name outside the table",
        "docs/KERNEL.md has the calls that are known; map another by a macro to a function that rtcheck.toml names",
    ),
    14: ("no type", "an operand, a test or an initialiser has a type that the place doesn't take: ask the compiler"),
    15: (
        "function value outside the subset",
        "a function's address that is cast to another type, or that of a function without a body",
    ),
    16: ("pointer to a function pointer", "use the array of functions by its name, under an index"),
    17: ("more than three unsequenced operands with calls", "keep some results in variables first"),
    18: (
        "outside function not named in the settings",
        "name it in rtcheck.toml with its class; include/hal.toml has the drivers'",
    ),
    19: ("jump without its target", "a goto without its label, or a break, continue, case or default on its own"),
    20: ("more than 400000 points", "check fewer sources together"),
    21: ("more than 16384 slots", "check fewer sources together"),
    22: ("more than 8192 functions", "check fewer sources together"),
    23: ("main absent or of another type", "the folder needs one int main(void): was its source preprocessed?"),
    24: ("vector function of another type", "a vector's function is void NAME(void)"),
    25: ("too large", "a file has at most 1,048,576 bytes: check fewer headers or split the source"),
    26: (
        "status outside the subset",
        "keep the status in one variable of the function, and hand that to chSysRestoreStatusX",
    ),
    27: ("mutex argument outside the subset", "name the mutex by its variable"),
    28: ("more than 255 mutexes", "check fewer sources together"),
}

SETTINGS_KINDS = {
    "absent": "copy an rtcheck.toml into the folder that is checked; tools/rtcheck-build writes a first one",
    "too long": "take out entries that nothing declares",
    "not TOML": "see docs/SETTINGS.md for a whole file",
    "missing": "add the key",
    "unknown": "docs/SETTINGS.md has the keys that may be; locked needs version = 2",
    "wrong type": "docs/SETTINGS.md says of which type the value is",
    "out of range": "docs/SETTINGS.md says which values may be",
    "repeated": "take one of the two out",
    "no such name": "the sources have no such function, struct or member of function pointer type",
}
