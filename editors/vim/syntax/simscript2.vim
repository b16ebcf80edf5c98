" Vim syntax file: SIMSCRIPT II, the profile of simscript2 (docs/LANGUAGE.md)
if exists("b:current_syntax")
  finish
endif
syntax case ignore
setlocal iskeyword=@,48-57,.

" Words that are dropped: they mean nothing, and no name can be one.
syntax keyword simDropped A AN THE THIS MAY OUTPUT

syntax keyword simSection PREAMBLE END MAIN ROUTINE EVENT EVENTS EXTERNAL NOTICE NOTICES PERMANENT
syntax keyword simSection TEMPORARY ENTITY ENTITIES NORMALLY DEFINE PRIORITY BREAK
syntax keyword simStatement ARE INCLUDE EVERY EACH ALL SYSTEM HAS HAVE OWNS OWN BELONGS BELONG TO
syntax keyword simStatement MODE IS INTEGER AS VARIABLE VARIABLES FIFO LIFO SET SETS RANKED BY HIGH
syntax keyword simStatement LOW THEN ORDER TIES SAVING GIVEN GIVING YIELDING LET ADD SUBTRACT FROM
syntax keyword simStatement CREATE CALLED DESTROY FILE REMOVE FIRST LAST BEFORE AFTER IN ON OF AT IF
syntax keyword simStatement ELSE OTHERWISE ALWAYS REGARDLESS FOUND NONE NOT EMPTY AND OR EQ NE LT LS
syntax keyword simStatement GT GR LE GE FOR BACK REVERSE WITH UNLESS WHILE UNTIL DO LOOP REPEAT FIND
syntax keyword simStatement CASE COMPUTE NUMBER SUM MAXIMUM MINIMUM SCHEDULE CAUSE CANCEL NOW UNIT
syntax keyword simStatement UNITS DAY DAYS START SIMULATION STOP CALL RETURN READ PRINT LINE LINES
syntax keyword simStatement SKIP
syntax keyword simStatement THUS FOLLOWS nextgroup=simPicture skipwhite skipnl

syntax match simNumber "\<\d\+\>"
syntax match simKept "\<\([NFLPSM]\.[A-Z0-9.]\+\|TIME\.V\)\>"
syntax region simComment start="''" end="''\|$"
" A picture: the lines after THUS or AS FOLLOWS, up to the next statement. `rs=s`: its first sign may be a field.
syntax region simPicture contained start="."rs=s end="^\ze\s*\(END\|LET\|ADD\|SUBTRACT\|CREATE\|DESTROY\|FILE\|REMOVE\|IF\|ELSE\|OTHERWISE\|ALWAYS\|REGARDLESS\|FOR\|WHILE\|UNTIL\|DO\|LOOP\|REPEAT\|FIND\|COMPUTE\|SCHEDULE\|CAUSE\|CANCEL\|START\|STOP\|CALL\|RETURN\|READ\|PRINT\|SKIP\)\>" contains=simField
syntax match simField "\*\+" contained

highlight default link simDropped NonText
highlight default link simSection Structure
highlight default link simStatement Statement
highlight default link simNumber Number
highlight default link simKept Identifier
highlight default link simComment Comment
highlight default link simPicture String
highlight default link simField Special

let b:current_syntax = "simscript2"
