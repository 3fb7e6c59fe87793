# Has a menu whose resource names the method that a click comes to.
.class public La/Main;
.super Landroid/app/Activity;

.method public constructor <init>()V
    .registers 1
    invoke-direct {p0}, Landroid/app/Activity;-><init>()V
    return-void
.end method

.method public onCreateOptionsMenu(Landroid/view/Menu;)Z
    .registers 4
    invoke-virtual {p0}, La/Main;->getMenuInflater()Landroid/view/MenuInflater;
    move-result-object v0
    const/high16 v1, 0x7f040000
    invoke-virtual {v0, v1, p1}, Landroid/view/MenuInflater;->inflate(ILandroid/view/Menu;)V
    const/4 v0, 1
    return v0
.end method

.method public send(Landroid/view/MenuItem;)Z
    .registers 3
    invoke-static {}, Lvendor/Device;->id()Ljava/lang/String;
    move-result-object v0
    invoke-static {v0}, Lvendor/Net;->post(Ljava/lang/Object;)V
    const/4 v0, 1
    return v0
.end method
