a: begin; B: begin read only; a: insert into T values (null, +1, 'x'); -- NULL is no key
b: update T set Y = null, Z = 'x' where not X in (1, 2)
    or X > -3 and Z is null;
a: insert into t values (-4, +1, 'it');
a: update T set Y = null, Z = 'x' where not X in (1, 2) or Y = 3;
a: delete from T where X = 9; a: select * from T where (X = Y) is unknown;
a: set constraints all deferred; a: verdict SOUND; a: set constraints sound immediate;
a: commit work; b: select z, X from t; b: rollback; a: commit; b: rollback work;
