void main()
{
    void vDone;
    PrintString("done");
}
