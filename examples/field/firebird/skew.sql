/* Two transactions, of which each overwrites what the other has read. The one has begun, and makes its first call once the other has committed. */
SET HEADING OFF;
COMMIT;
SET TRANSACTION NO WAIT ISOLATION LEVEL
SET TERM !;
EXECUTE BLOCK RETURNS (told VARCHAR(99)) AS BEGIN
    IN AUTONOMOUS TRANSACTION DO BEGIN
        SELECT 'the one begins; the other reads register 0: ' || v || ', sets 1 to 7, and commits' FROM registers WHERE k = 0 INTO :told;
        UPDATE registers SET v = 7 WHERE k = 1;
    END
    SUSPEND;
END!
SET TERM ;!
SELECT 'the one makes its first call: it reads register 1: ' || v || ', sets 0 to 9, and commits' FROM registers WHERE k = 1;
UPDATE registers SET v = 9 WHERE k = 0;
COMMIT;
SELECT 'registers 0 and 1 hold ' || x.v || ' and ' || y.v FROM registers x, registers y WHERE x.k = 0 AND y.k = 1;
COMMIT;
