void main()
{
	int nCount = 3;
	if (nCount)
		SpeakString("There are " + nCount + " lamps.");
}
