DROP TABLE IF EXISTS registers;
CREATE TABLE registers (k INT PRIMARY KEY, v BIGINT);
INSERT INTO registers VALUES (0, 0), (1, 0), (2, 0), (3, 0), (4, 0), (5, 0), (6, 0), (7, 0);
