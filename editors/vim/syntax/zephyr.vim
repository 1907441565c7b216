" Scenarios and listings of zy_bench.
if exists('b:current_syntax')
  finish
endif

syntax case match
syntax keyword zephyrHeader zephyr cap pages rule nextgroup=zephyrRule skipwhite
syntax keyword zephyrRule held loose contained
syntax keyword zephyrStatement row txn end
syntax keyword zephyrInstruction set read write insert add sum beq commit abort
syntax keyword zephyrActor A B C AB BA
syntax keyword zephyrChoice start begin kill run take finish push
syntax keyword zephyrTimes x
syntax keyword zephyrListing steps final trace opening mode page link serial low rows locks regs done pc private same differs
syntax keyword zephyrMode normal empty sinit sdual sfinish dinit ddual dfinish
syntax keyword zephyrGood did began got committed started finishing pushed
syntax keyword zephyrWait waits awaits pulls held notyet active split stale idle elsewhere badmode nomessage nopush
syntax keyword zephyrBad aborted gone missing duplicate frozen nopage badkey own killed stray
syntax match zephyrRegister /\<r[0-7]\>/
syntax match zephyrNumber /\<\d\+\>/
syntax match zephyrTarget /@\d\+\>/
syntax match zephyrLabel /\<[A-Za-z_][A-Za-z0-9_]*:/
syntax match zephyrArrow /->\|!/
syntax match zephyrComment /;.*$/

highlight default link zephyrHeader PreProc
highlight default link zephyrRule Constant
highlight default link zephyrStatement Keyword
highlight default link zephyrInstruction Statement
highlight default link zephyrActor Type
highlight default link zephyrChoice Function
highlight default link zephyrTimes Operator
highlight default link zephyrListing Keyword
highlight default link zephyrMode Constant
highlight default link zephyrGood String
highlight default link zephyrWait Todo
highlight default link zephyrBad Error
highlight default link zephyrRegister Identifier
highlight default link zephyrNumber Number
highlight default link zephyrTarget Label
highlight default link zephyrLabel Label
highlight default link zephyrArrow Operator
highlight default link zephyrComment Comment

let b:current_syntax = 'zephyr'
