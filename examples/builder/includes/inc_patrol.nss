#include "inc_time"

struct Post
{
    string sTag;
    int nWait;
    string sReport;
};

struct Post PostOf(string sTag, int nWait, string sReport = "")
{
    struct Post post;
    post.sTag = sTag;
    post.nWait = nWait;
    post.sReport = sReport;
    return post;
}

void Visit(struct Post post)
{
    object oPost = GetWaypointByTag(post.sTag);
    ActionMoveToObject(oPost);
    ActionWait(post.nWait);
    if (post.sReport != "") ActionSpeakString(post.sReport);
}

void Round(string sTag, int nPosts, int nWait = ROUND)
{
    int n;
    for (n = 1; n <= nPosts; n++) Visit(PostOf(sTag + IntToString(n), nWait));
}
