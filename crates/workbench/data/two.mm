$( Local variables, a hypothesis before a variable, and names that change. $)
$c wff |- $.
$v p $.
w.p $f wff p $.
${
  h $e |- p $.
  $v r $.
  wr $f wff r $.
  m $a |- r $.
$}
${
  $v r $.
  xr $f wff r $.
  g $e |- r $.
  t $p |- p $= ( m ) BCAD $.
$}
${ $v r $. yr $f wff r $. k $e |- r $.
   u $p |- p $= yr k w.p m $. $}
