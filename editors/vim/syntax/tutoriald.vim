" Vim syntax file for scripts of Tutorial D, as td reads them
if exists("b:current_syntax")
  finish
endif

syntax case ignore
syntax iskeyword @,48-57,_,35,192-255

syntax keyword tutorialdStatement BEGIN COMMIT CONSTRAINT DELETE DROP DUMP D_INSERT INSERT I_DELETE ROLLBACK
syntax keyword tutorialdStatement TRANSACTION TYPE UPDATE VAR WRITE
syntax keyword tutorialdType BOOLEAN CHAR INTEGER RELATION TUPLE
syntax keyword tutorialdConstant FALSE TABLE_DEE TABLE_DUM TRUE
syntax keyword tutorialdAggregate COUNT IS_EMPTY MAX MIN SUM
syntax keyword tutorialdOperator AND COMPOSE D_UNION EXTEND FROM GROUP IN INTERSECT I_MINUS JOIN MATCHING MINUS
syntax keyword tutorialdOperator NOT OR RENAME SUMMARIZE TCLOSE TIMES UNGROUP UNION UNWRAP WHERE WRAP
syntax keyword tutorialdOther ADD ALL AS BASE BUT BY ELSE END IF INIT KEY PER POSSREP REAL THEN VIRTUAL WITH

syntax match tutorialdComponent "\<THE_\k*"
syntax match tutorialdNumber "\<\d\+"
syntax region tutorialdText start=+'+ skip=+''+ end=+'+
syntax match tutorialdComment "//.*$"
syntax region tutorialdComment start="/\*" end="\*/"

highlight default link tutorialdStatement Statement
highlight default link tutorialdType Type
highlight default link tutorialdConstant Constant
highlight default link tutorialdAggregate Function
highlight default link tutorialdOperator Operator
highlight default link tutorialdOther Keyword
highlight default link tutorialdComponent Identifier
highlight default link tutorialdNumber Number
highlight default link tutorialdText String
highlight default link tutorialdComment Comment

let b:current_syntax = "tutoriald"
