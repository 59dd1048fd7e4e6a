/* The text of cases in memory that is only read. */
    .section .rodata
    .global testkit_cases, testkit_cases_end
testkit_cases:
    .incbin TESTKIT_FILE
testkit_cases_end:
    .section .note.GNU-stack, "", %progbits
