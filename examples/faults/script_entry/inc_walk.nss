void Walk(string sPost, int nPosts)
{
    ActionWait(500 * nPosts);
}
