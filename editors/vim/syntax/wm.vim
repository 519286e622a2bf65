" Lines of wm's language. To be put below ~/.vim, with ftdetect beside it.
if exists("b:current_syntax")
  finish
endif

syntax case ignore
syntax iskeyword @,48-57,_,$,#

syntax keyword wmType DATE INTEGER NUMBER TIMESTAMP VARCHAR2
syntax keyword wmConstant FALSE NULL SYSDATE TRUE UNTIL_CHANGED
syntax keyword wmFunction COUNT MAX MIN SUM TO_DATE WM_CONTAINS WM_EQUALS WM_GREATERTHAN WM_LESSTHAN WM_MEETS WM_OVERLAPS
syntax keyword wmFunction WM_PERIOD
syntax keyword wmName DBMS_WM VALIDFROM VALIDTILL WMSYS WM_VALID
syntax keyword wmWord AND AS ASC BETWEEN BY CONSTRAINT CREATE DELETE DESC DISTINCT EXEC EXECUTE FROM GROUP IN INNER INSERT
syntax keyword wmWord INTO IS JOIN KEY NOT ON OR ORDER PRIMARY SELECT SET TABLE UPDATE VALUES WHERE
syntax match wmLine /^\s*\(AT\|CONNECT\|DISCONNECT\)\>/
syntax match wmNumber /\<\d\+\>/
syntax match wmSession /^\s*\a[A-Za-z0-9_$#]*\ze\s*:/
syntax match wmCall /\(DBMS_WM\s*\.\s*\)\@<=\(UNTIL_CHANGED\>\)\@!\a[A-Za-z0-9_$#]*/
syntax region wmText start=/'/ skip=/''/ end=/'/ oneline
syntax match wmRemark /^\s*--.*$/

highlight default link wmLine PreProc
highlight default link wmType Type
highlight default link wmConstant Constant
highlight default link wmFunction Function
highlight default link wmName Special
highlight default link wmWord Statement
highlight default link wmNumber Number
highlight default link wmSession Identifier
highlight default link wmCall Function
highlight default link wmText String
highlight default link wmRemark Comment

let b:current_syntax = "wm"
