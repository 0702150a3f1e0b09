-- people
session s_1;
insert into `t` values
  (9223372036854775807, 'it''s'), (-1, null), (007, 'two
lines'), (-9223372036854775808, '\N');
DELETE FROM t WHERE t.`name` = 'x';
delete	FROM t
where `id`=-1 ;
