" Colours for scripts of Dusterindigo: sections, operations, numbers, files, kinds and comments.
if exists('b:current_syntax') | finish | endif
syntax case match

syntax match dusterindigoComment /#.*$/
syntax keyword dusterindigoSection timer initial dynamic
syntax keyword dusterindigoReport report
syntax keyword dusterindigoChoice if then else
syntax keyword dusterindigoOperator and or xor not eq ne lt le gt ge div idiv mod
syntax match dusterindigoOperator /[-+*\/<>&|!~]\|==/
syntax match dusterindigoNumber /\%([A-Za-z0-9_]\)\@1<!\%(\d\+\.\?\d*\|\.\d\+\)\%([eE][+-]\?\d\{1,6}\)\?/

" an operation is a word before a bracket
syntax match dusterindigoCall /\<\a\w*\>\ze\_s*(/ contains=dusterindigoOperation,dusterindigoChoice,dusterindigoOperator
syntax keyword dusterindigoOperation contained abs accuflux accuthresholdflux accuthresholdstate areaarea
syntax keyword dusterindigoOperation contained areaaverage areadiversity areamajority areamaximum areaminimum
syntax keyword dusterindigoOperation contained areatotal boolean catchment cover defined directional
syntax keyword dusterindigoOperation contained downstream lddmask lookupboolean lookupdirectional
syntax keyword dusterindigoOperation contained lookupnominal lookupordinal lookupscalar mapmaximum mapminimum
syntax keyword dusterindigoOperation contained maptotal max min nominal ordinal rounddown roundoff roundup
syntax keyword dusterindigoOperation contained scalar time timeinput timeinputboolean timeinputdirectional
syntax keyword dusterindigoOperation contained timeinputnominal timeinputordinal timeinputscalar timeoutput
syntax keyword dusterindigoOperation contained upstream windowaverage windowdiversity windowmajority
syntax keyword dusterindigoOperation contained windowmaximum windowminimum windowtotal

" files, numbers and kinds of the section binding, and the area map
syntax region dusterindigoBinding matchgroup=dusterindigoSection start=/\<binding\>/ end=/\ze\<areamap\>/ contains=dusterindigoComment,dusterindigoFile,dusterindigoBound,dusterindigoKind
syntax match dusterindigoFile contained /\%(=\_s*\)\@<=[A-Za-z0-9_][A-Za-z0-9_.+-]*/
syntax match dusterindigoBound contained /\%(=\_s*\)\@<=[+-]\?\%(\d\+\.\?\d*\|\.\d\+\)\%([eE][+-]\?\d\+\)\?[A-Za-z0-9_.+-]\@!/
syntax match dusterindigoKind contained /\%(:\_s*\)\@<=\<\%(boolean\|nominal\|ordinal\|scalar\|directional\|ldd\)\>/
syntax keyword dusterindigoSection areamap nextgroup=dusterindigoArea skipwhite skipempty
syntax match dusterindigoArea contained /[A-Za-z0-9_][A-Za-z0-9_.+-]*/

syntax sync fromstart
highlight default link dusterindigoComment Comment
highlight default link dusterindigoSection Keyword
highlight default link dusterindigoReport Keyword
highlight default link dusterindigoChoice Conditional
highlight default link dusterindigoOperator Operator
highlight default link dusterindigoNumber Number
highlight default link dusterindigoBound Number
highlight default link dusterindigoOperation Function
highlight default link dusterindigoFile String
highlight default link dusterindigoArea String
highlight default link dusterindigoKind Type
let b:current_syntax = 'dusterindigo'
