# The application object: it keeps the device id before any activity comes.
.class public La/App;
.super Landroid/app/Application;

.field public static it:La/App;
.field public id:Ljava/lang/String;

.method public onCreate()V
    .registers 2
    invoke-static {}, Lvendor/Device;->id()Ljava/lang/String;
    move-result-object v0
    iput-object v0, p0, La/App;->id:Ljava/lang/String;
    sput-object p0, La/App;->it:La/App;
    return-void
.end method
