.class public Lo/Odd;
.super Ljava/lang/Object;

.method static all()V
    .registers 1
    const-string v0, ""
    const-string v0, "\u0000 inside"
    const-string v0, "caf\u00e9"
    const-string v0, "\u20ac"
    const-string v0, "\ud83d\ude00"
    const-string v0, "\ud83d alone"
    const-string v0, "\\ and \" and \n"
    const-string v0, "long long long long long long long long long long long long long long long long long long long long long long long long long long long long long long long long long long long long long long long long "
    return-void
.end method
