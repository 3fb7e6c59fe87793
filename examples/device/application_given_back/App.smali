# The object of the application.
.class public La/App;
.super Landroid/app/Application;

.method public constructor <init>()V
    .registers 1
    invoke-direct {p0}, Landroid/app/Application;-><init>()V
    return-void
.end method

.method public send(Ljava/lang/Object;)V
    .registers 2
    invoke-static {p1}, Lvendor/Net;->post(Ljava/lang/Object;)V
    return-void
.end method
