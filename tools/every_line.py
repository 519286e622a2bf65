"""A script with a line of each kind that the program runs, and lines that ask for all that a script can see of the store."""

NOW = "2024-06-01"

# One line of each kind that the program runs, and some that it refuses.
SCRIPT = """
-- who is there
CONNECT A ANN
CONNECT B BEN
A: CREATE TABLE BUD (ID NUMBER PRIMARY KEY, AMT NUMBER, NOTE VARCHAR2(20))
A: CREATE TABLE EMP (NAME VARCHAR2(20) PRIMARY KEY, SAL NUMBER NOT NULL)
A: EXECUTE DBMS_WM.EnableVersioning('BUD', 'VIEW_WO_OVERWRITE')
A: EXECUTE DBMS_WM.EnableVersioning('EMP', 'NONE', FALSE, TRUE)
A: INSERT INTO BUD VALUES (1, 10, 'ten')
A: INSERT INTO BUD (ID, AMT) VALUES (2, 2 * (30 - 5))
A: INSERT INTO BUD VALUES (1, 11, NULL)
AT DATE '2024-06-02'

A: EXECUTE DBMS_WM.CreateWorkspace('W')
B: EXECUTE DBMS_WM.GotoWorkspace('W')
B: UPDATE BUD SET AMT = AMT + 1, NOTE = 'more' WHERE AMT > 5 OR NOTE IS NULL
B: EXECUTE DBMS_WM.CreateSavepoint('W', 'S')
B: DELETE FROM BUD WHERE ID = 2
A: UPDATE BUD SET AMT = 12 WHERE ID = 1
B: INSERT INTO BUD VALUES (3, 30, 'it''s new')
B: EXECUTE DBMS_WM.GotoSavepoint('S')
B: INSERT INTO BUD VALUES (4, 40, 'late')
B: SELECT ID, AMT FROM BUD
B: EXECUTE DBMS_WM.GotoSavepoint()
B: EXECUTE DBMS_WM.CreateSavepoint('W', 'T')
B: UPDATE BUD SET AMT = 0
A: EXECUTE DBMS_WM.RollbackToSP('LIVE', 'LATEST')
A: EXECUTE DBMS_WM.RollbackToSP('W', 'S')
A: EXECUTE DBMS_WM.RollbackToSP('W', 'S')
A: EXECUTE DBMS_WM.RollbackToSP('W', 'T')
A: EXECUTE DBMS_WM.CreateWorkspace('V')
B: EXECUTE DBMS_WM.GotoWorkspace('V')
B: INSERT INTO BUD VALUES (5, 50, 'for nothing')
A: EXECUTE DBMS_WM.RemoveWorkspace('V')
B: EXECUTE DBMS_WM.GotoWorkspace('W')
A: EXECUTE DBMS_WM.RemoveWorkspace('V')
A: EXECUTE DBMS_WM.RefreshWorkspace('W')
A: EXECUTE DBMS_WM.SetConflictWorkspace('W')
A: SELECT * FROM BUD_CONF
A: EXECUTE DBMS_WM.SetDiffVersions('W', 'LIVE')
A: SELECT * FROM BUD_DIFF
A: EXECUTE DBMS_WM.SetDiffVersions('W', 'S', 'LIVE', 'LATEST')
A: SELECT WM_CODE, COUNT(*) FROM BUD_DIFF GROUP BY WM_CODE
A: EXECUTE DBMS_WM.SetDiffVersions('W', 'S', 'LIVE')
A: EXECUTE DBMS_WM.SetDiffVersions('W', 'T', 'LIVE', 'LATEST')
A: EXECUTE DBMS_WM.GotoDate(DATE '2024-06-01')
A: SELECT B.AMT, E.SAL FROM BUD B, EMP E
A: DELETE FROM BUD
A: EXECUTE DBMS_WM.CreateWorkspace('X')
B: EXECUTE DBMS_WM.GotoDate(DATE '2024-06-01')
A: EXECUTE DBMS_WM.GotoSavepoint
A: EXECUTE DBMS_WM.FreezeWorkspace('W', '1WRITER', 'ANN')
B: UPDATE BUD SET AMT = 3
A: EXECUTE DBMS_WM.FreezeWorkspace('W', 'READ_ONLY')
B: EXECUTE DBMS_WM.UnfreezeWorkspace('W')
B: EXECUTE DBMS_WM.UnfreezeWorkspace('W')
A: EXECUTE DBMS_WM.FreezeWorkspace('W')
A: EXECUTE DBMS_WM.FreezeWorkspace('W', '1WRITER_SESSION')
B: EXECUTE DBMS_WM.MergeWorkspace('W')
A: EXECUTE DBMS_WM.UnfreezeWorkspace('W')
A: EXECUTE DBMS_WM.LockRows('W', 'BUD', 'ID = 1', 'S')
A: SELECT * FROM BUD_LOCK
A: UPDATE BUD SET AMT = 3 WHERE ID = 1
B: EXECUTE DBMS_WM.UnlockRows('W', 'BUD')
A: EXECUTE DBMS_WM.UnlockRows('W', 'BUD')
B: EXECUTE DBMS_WM.SetLockingON('WE')
B: UPDATE BUD SET NOTE = 'locked' WHERE ID = 2
B: EXECUTE DBMS_WM.SetLockingOFF
B: EXECUTE DBMS_WM.LockRows('W', 'BUD', 'ID = 2', 'WE')
A: EXECUTE DBMS_WM.LockRows('W', 'BUD', 'AMT = 1', 'WE')
A: EXECUTE DBMS_WM.CreateWorkspace('U')
B: EXECUTE DBMS_WM.GotoWorkspace('U')
B: DELETE FROM BUD WHERE ID = 2
A: UPDATE BUD SET NOTE = 'news' WHERE ID = 1
A: EXECUTE DBMS_WM.RefreshWorkspace('U')
A: EXECUTE DBMS_WM.RefreshWorkspace('U')
A: INSERT INTO BUD VALUES (7, 70, 'more news')
A: EXECUTE DBMS_WM.MergeWorkspace('U', create_savepoint => TRUE)
A: EXECUTE DBMS_WM.MergeWorkspace('U')
B: INSERT INTO BUD VALUES (6, 60, 'merged')
A: EXECUTE DBMS_WM.MergeWorkspace('U', remove_workspace => TRUE)
B: EXECUTE DBMS_WM.GotoWorkspace('LIVE')
A: EXECUTE DBMS_WM.MergeWorkspace('U', FALSE, TRUE)
A: EXECUTE DBMS_WM.SetValidTime(DATE '2020-01-01', DATE '2030-01-01')
A: INSERT INTO EMP VALUES ('Ada', 30)
A: INSERT INTO EMP VALUES ('Bob', 20)
A: EXECUTE DBMS_WM.SetValidTime(DATE '2022-01-01', DATE '2023-01-01')
A: UPDATE EMP SET SAL = SAL + 5 WHERE WM_OVERLAPS(WM_VALID, WM_PERIOD(DATE '2021-01-01', DATE '2022-06-01')) = 1
A: DELETE FROM EMP WHERE NAME = 'Bob'
A: UPDATE EMP SET WM_VALID = WM_PERIOD(DATE '2031-01-01', DATE '2032-01-01') WHERE SAL = 35
A: EXECUTE DBMS_WM.SetValidTime
A: SELECT E.NAME, E.SAL, B.AMT FROM EMP E JOIN BUD B ON B.ID = 1 WHERE E.SAL > 0 ORDER BY E.NAME DESC
A: SELECT AMT, COUNT(*), SUM(ID) FROM BUD GROUP BY AMT ORDER BY 2 DESC
A: SELECT DISTINCT NOTE FROM BUD WHERE ID IN (1, 2, 3) AND NOT (AMT BETWEEN 100 AND 200)
A: SELECT * FROM BUD_HIST WHERE WM_OPTYPE <> 'I' ORDER BY WM_CREATETIME DESC
A: SELECT C.WM_WORKSPACE, C.AMT, H.WM_RETIRETIME FROM BUD_CONF C JOIN BUD_HIST H ON C.ID = H.ID WHERE C.WM_DELETED <> 'NO'
B: EXECUTE DBMS_WM.GotoWorkspace('W')
B: INSERT INTO EMP VALUES ('Ada', 40, WM_PERIOD(DATE '2021-06-01', DATE '2022-06-01'))
B: SELECT * FROM EMP_CONF
B: SELECT * FROM EMP_HIST
B: EXECUTE DBMS_WM.CommitResolve('W')
B: EXECUTE DBMS_WM.BeginResolve('W')
B: EXECUTE DBMS_WM.ResolveConflicts('W', 'BUD', 'ID = 1', 'PARENT')
A: EXECUTE DBMS_WM.MergeWorkspace('W')
B: EXECUTE DBMS_WM.RollbackResolve('W')
B: EXECUTE DBMS_WM.BeginResolve('W')
B: EXECUTE DBMS_WM.ResolveConflicts('W', 'BUD', 'ID = 1 OR BUD.ID IN (2, 3)', 'PARENT')
A: UPDATE BUD SET AMT = 13 WHERE ID = 1
B: EXECUTE DBMS_WM.ResolveConflicts('W', 'BUD', 'ID = 2', 'BASE')
B: EXECUTE DBMS_WM.ResolveConflicts('W', 'BUD', 'AMT = 10', 'BASE')
B: EXECUTE DBMS_WM.ResolveConflicts('W', 'EMP', NULL, 'CHILD')
A: EXECUTE DBMS_WM.LockRows('W', 'BUD', 'ID = 1', 'WE')
B: EXECUTE DBMS_WM.CommitResolve('W')
A: EXECUTE DBMS_WM.UnlockRows('W', 'BUD')
B: EXECUTE DBMS_WM.CommitResolve('W')
B: SELECT * FROM BUD_CONF
A: EXECUTE DBMS_WM.RollbackToSP('LIVE', 'ICP-4')
A: EXECUTE DBMS_WM.CreateSavepoint('W', 'R')
A: EXECUTE DBMS_WM.LockRows('W', 'BUD', 'ID = 1', 'VE')
B: EXECUTE DBMS_WM.BeginResolve('W')
B: EXECUTE DBMS_WM.ResolveConflicts('W', 'BUD', '', 'CHILD')
B: EXECUTE DBMS_WM.CommitResolve('W')
A: EXECUTE DBMS_WM.RollbackToSP('W', 'R')
A: EXECUTE DBMS_WM.MergeWorkspace('W')
B: EXECUTE DBMS_WM.BeginResolve('W')
B: EXECUTE DBMS_WM.ResolveConflicts('W', 'BUD', 'ID = 1', 'CHILD')
B: EXECUTE DBMS_WM.CommitResolve('W')
AT TIMESTAMP '2024-06-02 17:30:00'
B: EXECUTE DBMS_WM.LockRows('LIVE', 'BUD', 'ID = 1', 'WE')
A: EXECUTE DBMS_WM.MergeWorkspace('W', TRUE)
B: EXECUTE DBMS_WM.UnlockRows('LIVE', 'BUD')
A: EXECUTE DBMS_WM.MergeWorkspace('W', TRUE)
B: UPDATE BUD SET AMT = 1 WHERE ID = 1
A: DELETE FROM BUD WHERE ID = 1
B: EXECUTE DBMS_WM.BeginResolve('W')
B: EXECUTE DBMS_WM.ResolveConflicts('W', 'BUD', '', 'PARENT')
B: EXECUTE DBMS_WM.SetConflictWorkspace('U')
A: EXECUTE DBMS_WM.FreezeWorkspace('W', '1WRITER', 'ANN')
A: EXECUTE DBMS_WM.LockRows('LIVE', 'EMP')
A: SELECT NOPE FROM BUD
A: MERGE
DISCONNECT B
"""

# Each workspace and savepoint is gone to, and all rows of both tables and of their views are listed; a line that is refused
# tells whether W is frozen. Nothing is changed.
READING = """
CONNECT Z ZOE
Z: EXECUTE DBMS_WM.SetValidTime(DATE '0001-01-01')
Z: SELECT * FROM BUD
Z: SELECT * FROM EMP
Z: SELECT * FROM BUD_HIST
Z: SELECT * FROM BUD_LOCK
Z: SELECT * FROM EMP_LOCK
Z: EXECUTE DBMS_WM.SetDiffVersions('LIVE', 'W')
Z: SELECT * FROM BUD_DIFF
Z: SELECT * FROM EMP_DIFF
Z: EXECUTE DBMS_WM.SetDiffVersions('W', 'S', 'LIVE', 'LATEST')
Z: SELECT * FROM BUD_DIFF
Z: EXECUTE DBMS_WM.GotoDate(DATE '2024-06-01')
Z: SELECT * FROM BUD
Z: SELECT * FROM EMP
Z: EXECUTE DBMS_WM.GotoDate(DATE '2024-06-02')
Z: SELECT * FROM BUD
Z: EXECUTE DBMS_WM.GotoSavepoint('ICP-4')
Z: SELECT * FROM BUD
Z: EXECUTE DBMS_WM.GotoWorkspace('W')
Z: EXECUTE DBMS_WM.CommitResolve('W')
Z: SELECT * FROM BUD
Z: SELECT * FROM EMP
Z: SELECT * FROM BUD_CONF
Z: SELECT * FROM EMP_CONF
Z: SELECT * FROM BUD_HIST
Z: EXECUTE DBMS_WM.GotoSavepoint('S')
Z: SELECT * FROM BUD
Z: SELECT * FROM EMP
Z: EXECUTE DBMS_WM.GotoSavepoint('T')
Z: SELECT * FROM BUD
Z: EXECUTE DBMS_WM.GotoSavepoint('R')
Z: SELECT * FROM BUD
Z: SELECT * FROM EMP
Z: EXECUTE DBMS_WM.GotoWorkspace('V')
Z: SELECT * FROM BUD
Z: EXECUTE DBMS_WM.GotoWorkspace('U')
Z: SELECT * FROM BUD
Z: SELECT * FROM EMP
Z: SELECT * FROM BUD_CONF
Z: SELECT * FROM BUD_HIST
"""

# What was made is refused.
MAKING = """
Z: EXECUTE DBMS_WM.CreateSavepoint('LIVE', 'S')
Z: EXECUTE DBMS_WM.CreateWorkspace('W')
"""


def lines_of(*texts):
    """The lines of the texts, each with its LF."""
    return [line.encode() + b"\n" for text in texts for line in text.strip().split("\n")]
