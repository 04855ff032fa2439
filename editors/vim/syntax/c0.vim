" C0, the language of cvm's kernels: docs/C0.md.
if exists('b:current_syntax')
  finish
endif
syntax case match
" The last that fits wins among matches that begin at one place, so what is rarer stands below.
syntax match c0Bad /\S/
syntax match c0Name /[A-Za-z_][A-Za-z0-9_]*/
syntax match c0Function /[A-Za-z_][A-Za-z0-9_]*\ze\s*(/
syntax match c0Mark /[{}()\[\];,]/
syntax match c0Operator /->\|==\|!=\|<=\|>=\|&&\|||\|[-=<>+*\/%!&.]/
syntax match c0Number /[0-9]\+/
syntax match c0BadNumber /0[0-9]\+/
syntax keyword c0Type int bool struct
syntax keyword c0Control if else while return
syntax keyword c0New new
syntax keyword c0Constant true false null
syntax match c0Primitive /\<\%(vm_get\|vm_set\|vm_size\|vm_resize\|vm_word\|vm_put\|vm_copy\|con_put\|con_get\|con_left\|trap\)\>\ze\s*(/
syntax match c0Comment /\/\/.*$/
" After `asm` a text in braces, up to the next `}` whatever stands before it.
syntax region c0Asm matchgroup=c0AsmWord start=/\<asm\>/ matchgroup=c0AsmMark end=/}/ contains=c0Comment,c0AsmText
syntax region c0AsmText contained matchgroup=c0AsmMark start=/{/ end=/\ze}/ contains=c0AsmBad,c0AsmComment,c0AsmMnemonic,c0AsmRegister,c0AsmNumber,c0AsmComma
syntax match c0AsmBad contained /[^[:space:]}]/
syntax match c0AsmMnemonic contained /\<\%(sllv\|srlv\|srav\|sll\|srl\|sra\|addiu\|addu\|subu\|andi\|and\|ori\|or\|xori\|xor\|nor\|sltiu\|slti\|sltu\|slt\|lui\)\>/
syntax match c0AsmRegister contained /\<r\%(0\|[2-7]\)\>/
syntax match c0AsmNumber contained /-\?\<\%(0x[0-9A-Fa-f]\{1,8}\|0\|[1-9][0-9]\{,9}\)\>/
syntax match c0AsmComma contained /,/
syntax match c0AsmComment contained /#[^}]*/
highlight default link c0Type Type
highlight default link c0Control Statement
highlight default link c0New Operator
highlight default link c0Constant Constant
highlight default link c0Number Number
highlight default link c0BadNumber Error
highlight default link c0Bad Error
highlight default link c0Function Function
highlight default link c0Primitive Identifier
highlight default link c0Operator Operator
highlight default link c0Mark Delimiter
highlight default link c0Comment Comment
highlight default link c0AsmWord Statement
highlight default link c0AsmMark Delimiter
highlight default link c0AsmMnemonic Keyword
highlight default link c0AsmRegister Identifier
highlight default link c0AsmNumber Number
highlight default link c0AsmComma Delimiter
highlight default link c0AsmComment Comment
highlight default link c0AsmBad Error
syntax sync fromstart
let b:current_syntax = 'c0'
