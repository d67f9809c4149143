create table T (X int primary key, Y int, Z varchar(3));
create assertion Sound check (not exists (select Y from T group by Y having sum(X) < -5)) initially deferred;
insert into T (Y, X) values (+3, -1);
