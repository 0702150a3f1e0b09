-- Two people come, and one goes.
SESSION s;
INSERT INTO t VALUES (1, 'x'), (2, NULL);
DELETE FROM t WHERE id = 1;
