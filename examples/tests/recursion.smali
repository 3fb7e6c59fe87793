.class public La/Main;
.super Landroid/app/Activity;
.method public onCreate(Landroid/os/Bundle;)V
    .registers 4
    invoke-static {}, Lvendor/Device;->id()Ljava/lang/String;
    move-result-object v0
    const/4 v1, 0x3
    invoke-static {v0, v1}, La/Main;->again(Ljava/lang/Object;I)V
    return-void
.end method
.method public static again(Ljava/lang/Object;I)V
    .registers 2
    if-eqz p1, :end
    add-int/lit8 p1, p1, -0x1
    invoke-static {p0, p1}, La/Main;->again(Ljava/lang/Object;I)V
    return-void
    :end
    invoke-static {p0}, Lvendor/Net;->post(Ljava/lang/Object;)V
    return-void
.end method
