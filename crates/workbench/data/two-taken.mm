$( Taken by mmrefactor from two.mm
   327 bytes, SHA-256 a83f3d3de20a86ed04fefeb5ffc84de8879428ff132a69b8c502226de44f11f4
   Chosen: all assertions
   Changed names: 3
     r is r_1
     r is r_2
     w.p is w_p
   Theorems taken as axioms, their proofs unchecked: 0
$)
$c wff |- $.
$v p r_1 r_2 r $.
w_p $f wff p $.
wr $f wff r_1 $.
xr $f wff r_2 $.
yr $f wff r $.
${
  m.1 $e |- p $.
  m $a |- r_1 $.
$}
${
  t.1 $e |- r_2 $.
  t $p |- p $= xr w_p t.1 m $.
$}
${
  u.1 $e |- r $.
  u $p |- p $= yr w_p u.1 m $.
$}
