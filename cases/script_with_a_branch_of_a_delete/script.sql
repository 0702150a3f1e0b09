SESSION s;
DELETE FROM t
.branch_b;