-- Rows of a file of version 1, written by hand: a project with a file and a variable, two runners, and one pipeline of three jobs. The first job was tried
-- twice: it failed, was tried again by its user, and succeeded. The second runs, holds the group `prod`, and has a trace of two blocks. The third waits for it.
INSERT INTO meta VALUES ('format', 1128878163), ('version', 1), ('next_project', 2), ('next_runner', 3), ('next_pipeline', 2), ('next_job', 4), ('next_attempt', 4);
INSERT INTO project VALUES (1, 'hello', 'p1-00000000000000000000000000000001', 'build:
  stage: build
  script: make
ship:
  resource_group: prod
  script: [make ship, make check]
after:
  stage: deploy
  script: make after
');
INSERT INTO variable VALUES (1, 'WHO', 'world');
INSERT INTO runner VALUES (1, 'shell', 'r1-00000000000000000000000000000002', NULL, '[]', 1, 0), (2, 'own', 'r2-00000000000000000000000000000003', 1, '["gpu","linux"]', 0, 1);
INSERT INTO pipeline VALUES (1, 1, 'main', 0, 3, 1000);
INSERT INTO job VALUES
  (1, 1, 0, 'build', 'build', '{"allow_failure":false,"interruptible":false,"needs":false,"resource_group":null,"retry":{"causes":[],"max":0},"script":["make"],"tags":[],"timeout":3600,"when":"on_success"}', 0, 0, 1),
  (2, 1, 1, 'ship', 'test', '{"allow_failure":false,"interruptible":false,"needs":false,"resource_group":"prod","retry":{"causes":[],"max":0},"script":["make ship","make check"],"tags":[],"timeout":3600,"when":"on_success"}', 0, 0, 0),
  (3, 1, 2, 'after', 'deploy', '{"allow_failure":false,"interruptible":false,"needs":false,"resource_group":null,"retry":{"causes":[],"max":0},"script":["make after"],"tags":[],"timeout":3600,"when":"on_success"}', 0, 0, 0);
INSERT INTO jobvar VALUES (1, 'CI', 'true'), (2, 'CI', 'true'), (3, 'CI', 'true'), (3, 'CI_JOB_NAME', 'after'), (3, 'WHO', 'world');
INSERT INTO need VALUES (2, 1), (3, 1), (3, 2);
INSERT INTO attempt VALUES
  (1, 1, 1, 'j1-00000000000000000000000000000004', 1010, 1015, 2, 1, 2),
  (2, 1, 1, 'j2-00000000000000000000000000000005', 1020, 1030, 1, NULL, 0),
  (3, 2, 1, 'j3-00000000000000000000000000000006', 1040, 1050, 0, NULL, NULL);
INSERT INTO piece VALUES (1, 0, CAST('no rule to make target' AS BLOB)), (3, 0, zeroblob(16384)), (3, 1, CAST('shipped' AS BLOB));
INSERT INTO holder VALUES (1, 'prod', 3);
INSERT INTO board VALUES (1, 3, 0, 0, 0), (2, 2, 0, 0, 0), (3, 0, 1, 0, 0);
