def M : SchedMachineModel { let IssueWidth = 1; let MicroOpBufferSize = 8; }
def : WriteRes<WriteIALU, []>;
