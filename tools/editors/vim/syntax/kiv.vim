" Vim syntax file: projects of kivd, its commands and its answers. A test compares the words with those of kv_table.
if exists("b:current_syntax")
  finish
endif

syn iskeyword @,48-57,_,192-255
syn keyword kivKeyword project unit basic enrich union rename param using actualize module export import by with end
      \ sort data fun pred proc generated axiom theorem proof qed simp restrict equating measure below from true false
      \ not and or all ex skip abort if then else while do var in open as
" a rule stands where a step begins
syn match kivRule '\%(\%(=\|;\|{\||\)\_s*\)\@<=\%(close\|falseL\|trueR\|notL\|notR\|andL\|orR\|andR\|orL\|impL\|impR\|iffL\|iffR\|dropL\|dropR\|cut\|allR\|exL\|allL\|exR\|refl\|swap\|subst\|use\|induct\|skip\|abort\|assign\|seq\|cond\|local\|unwind\|call\|inv\|rec\|dual\|mono\|simp\)\>'
" a command begins a line
syn match kivCommand '^\%(add\|put\|drop\|theorem\|change\|forget\|proof\|unproof\|prune\|status\|state\|goals\|needs\|above\|graph\|flat\|obligations\|text\|seal\|save\)\>'
" a state is the third word of a row, a reason stands behind it
syn match kivState '\%(^\%(unit\|theorem\|proof\) \S\+ \)\@<=\%(ill\|broken\|open\|proved\|waiting\|cyclic\|idle\|ok\|bad\|refined\|unrefined\)\>'
syn match kivReason '\%(^\%(unit\|theorem\) \S\+ \%(bad\|ill\|broken [0-9.]\+ \S\+\) \)\@<=\%(cycle\|missing\|kind\|below\|clash\|unknown\|arity\|sort\|duplicate\|program\|constructor\|partial\|profile\|injective\|lost\|bodies\|export\|absent\|reach\|limit\|unit\|position\|shape\|fresh\|captured\|label\|body\|generation\|large\|surplus\)\>'
syn match kivNumber '\<\d\+\>'
syn match kivComment '%.*$'

hi def link kivKeyword Keyword
hi def link kivRule Function
hi def link kivCommand Statement
hi def link kivState Type
hi def link kivReason Error
hi def link kivNumber Number
hi def link kivComment Comment

let b:current_syntax = "kiv"
