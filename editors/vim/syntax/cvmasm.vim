" The assembler of cvm's users: docs/ASSEMBLER.md.
if exists('b:current_syntax')
  finish
endif
syntax case match
" The last that fits wins among matches that begin at one place, so what is rarer stands below.
syntax match cvmasmBad /\S/
syntax match cvmasmName /\<[A-Za-z_][A-Za-z0-9_]*/
syntax match cvmasmMark /[,()]/
syntax match cvmasmNumber /-\?\<\%(0x[0-9A-Fa-f]\{1,8}\|0\|[1-9][0-9]\{,9}\)\>/
syntax match cvmasmRegister /\<\%(r\%([12]\?[0-9]\|3[01]\)\|c[0-8]\)\>/
syntax match cvmasmMnemonic /\<\%(syscall\|addiu\|bgez\|bgtz\|blez\|bltz\|divu\|eret\|jalr\|mfc0\|mfhi\|mflo\|mtc0\|mthi\|mtlo\|mult\|multu\|sllv\|slti\|sltiu\|sltu\|srav\|srlv\|subu\|xori\|addi\|addu\|andi\|add\|and\|beq\|bne\|div\|jal\|lui\|nor\|ori\|sll\|slt\|sra\|srl\|sub\|xor\|jr\|lw\|or\|sw\|j\)\>/
syntax match cvmasmDirective /\.\%(word\|zero\)\>/
syntax match cvmasmLabel /\<[A-Za-z_][A-Za-z0-9_]*:/
syntax match cvmasmComment /#.*$/
highlight default link cvmasmBad Error
highlight default link cvmasmMark Delimiter
highlight default link cvmasmNumber Number
highlight default link cvmasmRegister Identifier
highlight default link cvmasmMnemonic Keyword
highlight default link cvmasmDirective PreProc
highlight default link cvmasmLabel Label
highlight default link cvmasmComment Comment
let b:current_syntax = 'cvmasm'
