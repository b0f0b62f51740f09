$( Taken by mmrefactor from ticks.mm
   130 bytes, SHA-256 bfce3747b9736fd23c80301139e00e020ae3fd2034513e2f2176b7cbe024d2f0
   Chosen: all assertions
   Changed names: 0
   Theorems taken as axioms, their proofs unchecked: 0
$)
$c wff |- $.
$v p $.
wp $f wff p $.
ax $a |- p $.
