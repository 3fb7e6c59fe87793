.class public La/Main;
.super Landroid/app/Activity;
.method public onCreate(Landroid/os/Bundle;)V
    .registers 8
    invoke-static {}, Lvendor/Device;->id()Ljava/lang/String;
    move-result-object v0
    invoke-static {v0}, La/Main;->number(Ljava/lang/Object;)I
    move-result v1
    invoke-static {v1}, La/Main;->pair(Ljava/lang/Object;)J
    move-result-wide v2
    invoke-static {v2}, La/Main;->object(Ljava/lang/Object;)Ljava/lang/Object;
    move-result-object v4
    move-object v0, v4
    invoke-static {v0}, Lvendor/Net;->post(Ljava/lang/Object;)V
    return-void
.end method
.method public static number(Ljava/lang/Object;)I
    .registers 3
    return p0
.end method
.method public static pair(Ljava/lang/Object;)J
    .registers 3
    move-object v0, p0
    return-wide v0
.end method
.method public static object(Ljava/lang/Object;)Ljava/lang/Object;
    .registers 3
    return-object p0
.end method
