# A function in another, two names of one function, a label, a function that ends the section, and data.
        .text
        .globl outer
        .type outer, @function
outer:
        nop
        nop
        .globl inner
        .type inner, @function
inner:
        nop
        nop
        .size inner, . - inner
        nop
        nop
        .size outer, . - outer
label:
        nop
        .weak alias
        .type alias, @function
        .globl last
        .type last, @function
alias:
last:
        nop
        ret
        .size last, . - last
        .size alias, . - alias
        .data
        .globl value
        .type value, @object
value:
        .quad 1
        .size value, . - value
        .quad 2
        .section .note.GNU-stack, "", @progbits
