void main() { PrintString(Get2DAString("x","COST",0)); }
