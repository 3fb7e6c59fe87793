# Has the library run an action, and sends what comes out of the call.
.class public La/Main;
.super Landroid/app/Activity;
.implements Ljava/security/PrivilegedAction;

.method public constructor <init>()V
    .registers 1
    invoke-direct {p0}, Landroid/app/Activity;-><init>()V
    return-void
.end method

.method public onCreate(Landroid/os/Bundle;)V
    .registers 3
    invoke-static {p0}, Ljava/security/AccessController;->doPrivileged(Ljava/security/PrivilegedAction;)Ljava/lang/Object;
    move-result-object v0
    invoke-static {v0}, Lvendor/Net;->post(Ljava/lang/Object;)V
    return-void
.end method

.method public run()Ljava/lang/Object;
    .registers 2
    invoke-static {}, Lvendor/Device;->id()Ljava/lang/String;
    move-result-object v0
    return-object v0
.end method
