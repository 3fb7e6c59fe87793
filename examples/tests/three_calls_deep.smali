.class public La/Main;
.super Landroid/app/Activity;
.method public static h(Ljava/lang/Object;)Ljava/lang/Object;
    .registers 1
    invoke-static {p0}, La/Main;->k(Ljava/lang/Object;)Ljava/lang/Object;
    move-result-object p0
    return-object p0
.end method
.method public static k(Ljava/lang/Object;)Ljava/lang/Object;
    .registers 1
    invoke-static {p0}, La/Main;->j(Ljava/lang/Object;)Ljava/lang/Object;
    move-result-object p0
    return-object p0
.end method
.method public static j(Ljava/lang/Object;)Ljava/lang/Object;
    .registers 1
    return-object p0
.end method
.method public onCreate(Landroid/os/Bundle;)V
    .registers 3
    invoke-static {}, Lvendor/Device;->id()Ljava/lang/String;
    move-result-object v0
    invoke-static {v0}, La/Main;->h(Ljava/lang/Object;)Ljava/lang/Object;
    const/4 v0, 0x0
    invoke-static {v0}, La/Main;->h(Ljava/lang/Object;)Ljava/lang/Object;
    move-result-object v0
    invoke-static {v0}, Lvendor/Net;->post(Ljava/lang/Object;)V
    return-void
.end method
