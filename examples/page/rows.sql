-- Behind the rows of .ci/version1.sql: a project whose texts are hostile to a page, and pipelines whose statuses are each of those that there are.
UPDATE meta SET num = 3 WHERE key = 'next_project';
UPDATE meta SET num = 14 WHERE key = 'next_pipeline';
UPDATE meta SET num = 29 WHERE key = 'next_job';
UPDATE meta SET num = 9 WHERE key = 'next_attempt';
INSERT INTO project VALUES (2, '<script>alert("2")</script> & co', 'p2-00000000000000000000000000000007', NULL), (3, 'empty', 'p3-00000000000000000000000000000008', NULL),
  (4, 'modes', 'p4-00000000000000000000000000000015', NULL);
INSERT INTO runner VALUES (3, '<i>runner', 'r3-00000000000000000000000000000009', 2, '[]', 1, 0);
INSERT INTO pipeline VALUES
  (2, 2, '</title><b onclick="x">', 1, 0, 2000), (3, 2, 'main', 0, 1, 3000), (4, 2, 'main', 0, 2, 4000), (5, 2, 'main', 0, 3, 5000), (6, 2, 'main', 0, 4, 6000),
  (7, 2, 'main', 0, 0, 7000), (8, 2, 'main', 0, 0, 8000), (9, 2, 'main', 0, 0, 253402300799), (10, 2, 'main', 0, 0, 10000),
  (11, 4, 'a', 0, 0, 11000), (12, 4, 'b', 0, 0, 12000), (13, 4, 'c', 0, 0, 13000);
CREATE TEMP TABLE said (pipeline, id, pos, name, stage, allow, grp, when_, status, script);
INSERT INTO said VALUES
  (2, 4, 0, '<img src=x onerror=alert(1)>', '"><b>', 'false', 'null', 'on_success', 3, 'make </pre><script>'),
  (2, 5, 1, 'allowed', 'test', '[3]', 'null', 'on_success', 4, 'exit 3'),
  (2, 6, 2, 'left out', 'test', 'false', 'null', 'on_failure', 6, 'x'),
  (3, 7, 0, 'not allowed', 'test', '[3]', 'null', 'on_success', 4, 'exit 4'),
  (4, 8, 0, 'by hand', 'test', 'false', 'null', 'manual', 7, 'x'),
  (4, 9, 1, 'after', 'deploy', 'false', 'null', 'on_success', 0, 'x'),
  (5, 10, 0, 'may be played', 'test', 'true', 'null', 'manual', 7, 'x'),
  (5, 11, 1, 'left out', 'test', 'false', 'null', 'on_failure', 6, 'x'),
  (6, 12, 0, 'taken away', 'test', 'false', 'null', 'on_success', 5, 'x'),
  (7, 13, 0, 'done', 'build', 'false', 'null', 'on_success', 3, 'x'),
  (7, 14, 1, 'next', 'test', 'false', 'null', 'on_success', 1, 'x'),
  (8, 15, 0, 'first', 'build', 'false', 'null', 'on_success', 1, 'x'),
  (8, 16, 1, 'second', 'build', 'false', 'null', 'on_success', 0, 'x'),
  (8, 17, 2, 'third', 'test', 'false', 'null', 'on_success', 0, 'x'),
  (8, 18, 3, 'fourth', 'test', 'false', 'null', 'on_success', 0, 'x'),
  (8, 19, 4, 'fifth', 'deploy', 'false', 'null', 'on_success', 0, 'x'),
  (9, 20, 0, 'ship', 'deploy', 'false', '"prod"', 'on_success', 2, 'x'),
  (10, 21, 0, 'ship', 'deploy', 'false', '"prod"', 'on_success', 1, 'x'),
  (10, 22, 1, 'other', 'deploy', 'false', '"other"', 'on_success', 1, 'x'),
  (11, 23, 0, 'make', 'build', 'false', 'null', 'on_success', 1, 'x'),
  (11, 24, 1, 'ship', 'deploy', 'false', '"oldest"', 'on_success', 0, 'x'),
  (12, 25, 0, 'ship', 'deploy', 'false', '"oldest"', 'on_success', 1, 'x'),
  (12, 26, 1, 'late', 'deploy', 'false', '"newest"', 'on_success', 1, 'x'),
  (13, 27, 0, '名前の長い仕事がここにあります名前の長い仕事', 'deploy', 'false', '"newest"', 'on_success', 1, 'x'),
  (13, 28, 1, 'ship', 'deploy', 'false', '"oldest"', 'on_success', 1, 'x');
INSERT INTO job SELECT id, pipeline, pos, name, stage, '{"allow_failure":' || allow || ',"interruptible":false,"needs":false,"resource_group":' || grp
  || ',"retry":{"causes":[],"max":0},"script":["' || script || '"],"tags":[],"timeout":3600,"when":"' || when_ || '"}', 0, id = 12, 0 FROM said;
INSERT INTO board SELECT id, status, 0, 0, 0 FROM said;
INSERT INTO need VALUES (5, 4), (6, 4), (9, 8), (14, 13), (16, 15), (17, 15), (17, 16), (18, 15), (18, 16), (19, 15), (19, 16), (19, 17), (19, 18), (24, 23);
INSERT INTO attempt VALUES
  (4, 4, 3, 'j4-00000000000000000000000000000010', 2010, 2075, 1, NULL, NULL), (5, 5, 3, 'j5-00000000000000000000000000000011', 2100, 9310, 2, 1, 3),
  (6, 7, 3, 'j6-00000000000000000000000000000012', 3000, 3000, 2, 1, 4), (7, 13, 3, 'j7-00000000000000000000000000000013', 7000, 7001, 1, NULL, 0),
  (8, 20, 3, 'j8-00000000000000000000000000000014', 253402300799, 253402300799, 0, NULL, NULL);
INSERT INTO holder VALUES (2, 'prod', 8);
INSERT INTO mode VALUES (4, 'oldest', 1), (4, 'newest', 2);
-- A trace with tags, a command to the terminal, a line that is written over, and bytes that are no UTF-8; and one of three blocks.
INSERT INTO piece VALUES (4, 0, CAST('</pre><script>alert(4)</script>' || char(10, 27) || '[31mred' || char(27) || '[0m' || char(10) || '10%' || char(13) || '100%' || char(13, 10)
    || CAST(x'FF00E280AE' AS TEXT) AS BLOB)),
  (5, 0, zeroblob(16384)), (5, 1, zeroblob(16384)), (5, 2, CAST('the end' AS BLOB));
