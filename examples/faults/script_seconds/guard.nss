void Shout()
{
    SpeakString("Who goes there?");
}

void main()
{
	DelayCommand(1.5, Shout());
}
