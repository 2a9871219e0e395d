-- Statements of many kinds for SQLite's shell, some of them wrong.
create table city(id integer primary key, name text not null unique, people int, area real);
insert into city(name, people, area) values('Arden', 1200, 3.5), ('Bree', 8400, 11.25), ('Corvo', 300, 17.12);
insert into city values(10, 'Dale', 52000, 40.0);
insert into city(name) values('Ennis');
insert into city(name) values('Bree');
insert or ignore into city(name) values('Bree');
insert or replace into city(id, name, people) values(10, 'Dale', 53000);
insert into city(name, people) values('Bree', 1) on conflict(name) do update set people = people + excluded.people;
select * from city order by name desc;
select count(*), count(people), sum(people), avg(area), min(name), max(name), total(area) from city;
select name, people / area as density from city where area > 0 order by density;
update city set area = people / 1000.0 where area is null;
update city set people = null where name = 'Ennis' returning id, name;
delete from city where people is null returning name;
create table road(a int references city(id), b int, length real check(length > 0), primary key(a, b)) without rowid;
insert into road values(1, 2, 12.5), (2, 3, 7.25), (3, 10, 99.0), (1, 10, 150.0);
insert into road values(1, 3, -1);
insert into road values(1, 2, 3);
select c.name, d.name, r.length from road r join city c on c.id = r.a join city d on d.id = r.b order by 1, 2;
select c.name, count(r.b) from city c left join road r on r.a = c.id group by c.id having count(*) > 0;
with recursive reach(id, far) as (select 1, 0.0 union select b, far + length from road, reach where a = id) select name, min(far) from reach join city using(id) group by id;
create index city_people on city(people desc);
create index city_part on city(name) where people > 1000;
explain query plan select name from city where people > 500 order by people desc;
create view large as select name, people from city where people > 1000;
select * from large order by people;
create view wrong as select nothing from nowhere;
select * from wrong;
drop view wrong;
create table log(at integer primary key, what text, old, new);
create trigger city_changed after update of people on city begin insert into log(what, old, new) values(new.name, old.people, new.people); end;
create trigger city_gone before delete on city when old.people > 50000 begin select raise(abort, 'too large to go'); end;
update city set people = people + 1;
delete from city where name = 'Dale';
select * from log;
create trigger large_insert instead of insert on large begin insert into city(name, people) values(new.name, new.people); end;
insert into large values('Fenn', 2500);
select name, people from city order by id;
begin; update city set people = 0; rollback;
select sum(people) from city;
savepoint one; delete from road; savepoint two; drop table log; rollback to one; release one;
select count(*) from road;
with recursive n(i) as (select 1 union all select i + 1 from n where i < 400) insert into log(what, old, new) select 'n' || i, i * i % 97, i / 3.0 from n;
select old, count(*), round(avg(new), 3) from log where what like 'n%' group by old order by 2 desc, 1 limit 6;
select what from log where what glob 'n[12]?' order by length(what), what limit 5 offset 3;
select at, old, sum(old) over (order by at rows between 2 preceding and current row), rank() over (partition by old % 3 order by new desc), lag(old, 1, 'none') over w, ntile(4) over w from log where at < 12 window w as (order by at);
select group_concat(what, '+') from (select what from log order by at desc limit 5);
select distinct old % 5 from log order by 1;
select old from log where at < 9 union select at from log where at < 4 except select 2 intersect select old from log order by 1;
select case when people > 5000 then 'large' when people > 1000 then 'middle' else 'small' end as kind, count(*) from city group by kind;
select json('{"a": [1, 2.5, null, {"b": "text"}]}'), json_extract('{"a":[1,2,{"b":"x"}]}', '$.a[2].b'), json_type('[1]', '$[0]');
select key, value, type, path from json_tree('{"a": [10, {"b": true}], "c": null}');
select json_group_array(name), json_group_object(name, people) from city;
select json_set('{"a":1}', '$.b', json('[1,2]')), json_remove('[0,1,2]', '$[1]'), json_patch('{"a":1}', '{"a":null,"c":2}'), json_valid('{x}');
select json('{"a": ');
select printf('%08.3f|%-10s|%+d|%x|%e|%c|%q|%Q|%,d', 3.14159, 'left', 7, 255, 12345.678, 'z', 'it''s', null, 1234567);
select round(sqrt(2), 9), power(2, 0.5) > 1.41, ceil(-1.5), ln(10) > 2.3, mod(17, 5), pi() > 3.14, atan2(1, 1) < 0.8;
select date('2024-02-29', '+1 year'), time('12:34:56', '-90 minutes'), datetime(0, 'unixepoch'), strftime('%Y-%j %W', '2023-12-31'), julianday('2000-01-01'), unixepoch('1970-01-02');
select upper(hex(x'ab0c')), quote(x'00ff'), typeof(1.0), typeof(null), 7 / 2, 7 % 3, 7.0 / 2, 1 << 40, ~5, 5 & 3 | 8, abs(-9223372036854775807);
select abs(-9223372036854775808);
select 9223372036854775807 + 1, -9223372036854775808 - 1, 1e308 * 10, 0 / 0, 1 / 0.0;
select cast('12abc' as int), cast(3.99 as int), cast('0x10' as int), cast(x'3132' as text), '5' + '6', 'a' || 1 || 2.5;
select substr('characters', 3, 4), substr('abc', -2), instr('haystack', 'st'), replace('banana', 'an', 'AN'), trim('  x '), ltrim('xxy', 'x'), rtrim('yzz', 'z'), length('Größe'), unicode('é'), char(71, 246);
select like('a%c', 'abc'), 'abc' like 'A_C', 'abc' glob 'A*', 'a' < 'B' collate nocase, null is null, null = null, coalesce(null, null, 3), ifnull(null, 4), nullif(5, 5), iif(1 > 2, 'y', 'n');
select zeroblob(5) = x'0000000000', length(randomblob(16)), typeof(random()), max(3, 1, 2), min('b', 'a');
select likelihood(1, 0.5), sign(-3.5), soundex('x');
select * from missing;
select name from city where;
selec 1;
insert into city(nothing) values(1);
insert into city(name) values(1, 2);
select sum(1, 2);
select (select id, name from city);
create table city(x);
create table strict_one(a int, b text, c blob) strict;
insert into strict_one values('not a number', 'b', x'01');
insert into strict_one values(1, 2, x'03');
select a, typeof(b), hex(c) from strict_one;
create table made(a int, b int generated always as (a * 2) stored, c text as (a || '/' || b));
insert into made(a) values(1), (20), (300);
select * from made where b > 10;
alter table made add column d default 'new';
alter table made rename column d to e;
alter table made rename to remade;
alter table remade drop column c;
select * from remade;
create table deep(a, b, c, d, e, f, g, h, primary key(a, b, c));
insert into deep select i, i % 7, i % 11, 'text ' || i, x'0102', null, i * 1.5, 'long ' || printf('%.300c', 'x') from (with recursive n(i) as (select 1 union all select i + 1 from n where i < 300) select i from n);
select count(*), sum(length(h)), max(d), sum(g) from deep where b in (1, 3, 5) and c between 2 and 8;
create index deep_d on deep(d collate nocase, g desc);
select a, d from deep where d = 'TEXT 77' collate nocase;
delete from deep where a % 3 = 0;
reindex;
analyze;
select tbl, idx, stat from sqlite_stat1 order by 1, 2 limit 4;
vacuum;
pragma integrity_check;
pragma foreign_key_check;
pragma table_info(city);
pragma index_list(city);
pragma user_version = 7;
pragma user_version;
pragma encoding;
pragma compile_options_of_none;
attach ':memory:' as other;
create table other.copied as select * from city;
select count(*) from other.copied natural join main.city;
detach other;
values(1, 'a'), (2, 'b'), (3, x'63');
select a.value, b.value from generate_series(1, 3) a, generate_series(1, 2) b;
select name, sql is null from sqlite_schema where type in ('table', 'index') order by name;
explain select 1 + 1;
.mode column
select * from city;
.mode json
select * from city limit 2;
.mode insert copied
select * from city limit 2;
.mode markdown
select * from road;
.mode table
select * from road;
.mode line
select * from city limit 1;
.mode quote
select x'00', 'a''b', null, 1.5;
.mode list
.separator ; \n
select * from road;
.schema road
.indexes city
.tables
.dump remade
.parameter init
.parameter set :x 42
select :x + 1;
.show
.nothing
