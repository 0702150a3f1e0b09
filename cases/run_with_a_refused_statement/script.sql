-- of one session
SESSION s;
INSERT INTO t VALUES (-7, 'a,"b'), (3, ''), (3, '');
DELETE FROM t WHERE name = 'none';
INSERT INTO t VALUES (NULL, 'y');
DELETE FROM t WHERE name = NULL;
DELETE FROM t;
